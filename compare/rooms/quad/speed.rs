//! The five mixes timed. Each of the Rust's stands behind a call of the kind that ours is behind,
//! with the same memory: a state, of which the Rust's has the first five floats, four motors and the
//! scale. A mix changes it there, and these five are its answer; what the Rust's mix returns besides
//! is dropped, so that it need not be stored twice. Ours stores three more, the sums of its motors.
//!
//! Then what a display does with a state, by ours alone: the sums read, and worked out of its motors.
//!
//! All are called through a pointer, so nothing of them is known where they are called. The Rust's
//! calls the Rust's function, or has it inlined where the crates are optimized together.

use std::hint::black_box;
use std::rc::Rc;

use relay_mix_quad::QuadMixer;

use comparing::timed_commands::{Asked, Commands, PART};
use comparing::timing::{pair, side, side_of, Against, Side, Timing, RUST};

use super::call::{Call, Mix, State, FRESH};
use super::{ours, rust};

pub fn timings(commands: &Commands) -> Vec<Timing> {
    assert!(
        in_order(),
        "a state of the Rust is not the first five floats of ours"
    );
    let timing = |name, sides| Timing {
        name,
        against: RUST,
        pair: pair(commands, PART, sides),
    };
    vec![
        timing("plain", [plain(ours::footspandle_quad32_mix), plain(mix)]),
        timing(
            "thrust_floor",
            [our_thrust_floor(), floored(mix_thrust_floor)],
        ),
        timing(
            "priority",
            [
                floored(ours::footspandle_quad32_mix_priority),
                floored(mix_priority),
            ],
        ),
        timing(
            "airmode",
            [
                floored(ours::footspandle_quad32_mix_airmode),
                floored(mix_airmode),
            ],
        ),
        timing(
            "rotor_out",
            [
                rotor_out(ours::footspandle_quad32_mix_rotor_out),
                rotor_out(mix_rotor_out),
            ],
        ),
        display(commands),
    ]
}

pub fn our_thrust_floor() -> Side<Asked> {
    floored(ours::footspandle_quad32_mix_thrust_floor)
}

// ---- how a command is handed to each kind of function

/// The floats of a state that are a mix's answer: the motors, and the scale.
const ANSWER: usize = 5;

fn answer(state: &State) -> &[f32; ANSWER] {
    state.first_chunk().unwrap()
}

fn mixed(call: impl Fn(&mut State, &Asked) + 'static) -> Side<Asked> {
    side_of(FRESH, call, answer)
}

type Plain = unsafe extern "C" fn(*mut State, *const [f32; 3], f32);

fn plain(mix: Plain) -> Side<Asked> {
    let mix = black_box(mix);
    mixed(move |state, c| unsafe { mix(state, c.torque(), c.thrust()) })
}

type Floored = unsafe extern "C" fn(*mut State, *const [f32; 3], f32, f32);

fn floored(mix: Floored) -> Side<Asked> {
    let mix = black_box(mix);
    mixed(move |state, c| unsafe { mix(state, c.torque(), c.thrust(), c.floor) })
}

type RotorOut = unsafe extern "C" fn(*mut State, usize, *const [f32; 3], f32, f32);

fn rotor_out(mix: RotorOut) -> Side<Asked> {
    let mix = black_box(mix);
    mixed(move |state, c| unsafe { mix(state, c.rotor, c.torque(), c.thrust(), c.floor) })
}

// ---- the Rust

/// The state as the Rust has it. That its floats stand in this order is tested by `in_order`.
unsafe fn standing<'a>(state: *mut State) -> &'a mut QuadMixer {
    &mut *state.cast()
}

/// Whether a state of the Rust's is the first five floats of ours, in their order.
fn in_order() -> bool {
    let mixer = rust::mixer(&[1.0, 2.0, 3.0, 4.0, 5.0, 6.0, 7.0, 8.0]);
    size_of::<QuadMixer>() == size_of::<[f32; ANSWER]>()
        && unsafe { *(&raw const mixer).cast::<[f32; ANSWER]>() } == [1.0, 2.0, 3.0, 4.0, 5.0]
}

unsafe extern "C" fn mix(state: *mut State, torque: *const [f32; 3], thrust: f32) {
    standing(state).mix(*torque, thrust);
}

unsafe extern "C" fn mix_thrust_floor(
    state: *mut State,
    torque: *const [f32; 3],
    thrust: f32,
    floor: f32,
) {
    standing(state).mix_thrust_floor(*torque, thrust, floor);
}

unsafe extern "C" fn mix_priority(
    state: *mut State,
    torque: *const [f32; 3],
    thrust: f32,
    floor: f32,
) {
    standing(state).mix_priority(*torque, thrust, floor);
}

unsafe extern "C" fn mix_airmode(
    state: *mut State,
    torque: *const [f32; 3],
    thrust: f32,
    idle: f32,
) {
    standing(state).mix_airmode(*torque, thrust, idle);
}

unsafe extern "C" fn mix_rotor_out(
    state: *mut State,
    failed: usize,
    torque: *const [f32; 3],
    thrust: f32,
    floor: f32,
) {
    standing(state).mix_rotor_out(failed, *torque, thrust, floor);
}

// ---- a display

/// The sums worked out, and how much of that time reading them may take.
const COMPUTED: Against = Against {
    other: "computed",
    by: "part",
    limit: Some(1.0),
};

/// Of the state that thrust-floor gives for each command.
fn display(commands: &Commands) -> Timing {
    let states: Vec<State> = commands.iter().map(shown).collect();
    Timing {
        name: "last_torque",
        against: COMPUTED,
        pair: pair(&Rc::new(states), PART, [stored(), computed()]),
    }
}

fn shown(c: &Asked) -> State {
    let call = Call {
        mix: Mix::ThrustFloor,
        torque: *c.torque(),
        thrust: c.thrust(),
        floor: c.floor,
        rotor: c.rotor,
    };
    ours::mixed(&FRESH, &call)
}

fn stored() -> Side<State> {
    let read = black_box(ours::footspandle_quad32_last_torque as Stored);
    side([0.0; 3], move |sums, state: &State| unsafe {
        read(state, sums)
    })
}

type Stored = unsafe extern "C" fn(*const State, *mut [f32; 3]);

fn computed() -> Side<State> {
    let compute = black_box(ours::footspandle_motors_to_torque_signs as Computed);
    side([0.0; 3], move |sums, state: &State| unsafe {
        compute(state.first_chunk().unwrap(), sums)
    })
}

type Computed = unsafe extern "C" fn(*const [f32; 4], *mut [f32; 3]);
