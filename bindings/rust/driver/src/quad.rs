//! The quad: `QuadMixer`, reached by calls, since its fields are private, and
//! `motors_to_torque_signs`.

use comparing::inputs::{once, seeded, Inputs};
use comparing::random::Random;
use comparing::row::Row;
use rooms::quad::call::{Call, Mix, State, MIXES};
use rooms::quad::inputs::{call, motors, COMMAND_KINDS};

use crate::compared::{compared, FEWER, MANY, TEXTS, WHOLE};
use crate::sides::{both_sides, shown};

pub fn rows(wrong: bool) -> Vec<Row> {
    let fresh = once();
    let mut rows = vec![compared(
        wrong,
        "QuadMixer::new",
        fresh,
        |_| ours::fresh(),
        |_| rust::fresh(),
    )];
    rows.extend(MIXES.map(|mix| {
        let name = format!("QuadMixer::{}", mix.name());
        compared(wrong, name, chains(Some(mix)), ours::chain, rust::chain)
    }));
    rows.extend([
        compared(
            wrong,
            "QuadMixer::last_motors",
            states(),
            |calls| ours::after(calls).last_motors(),
            |calls| rust::after(calls).last_motors(),
        ),
        compared(
            wrong,
            "QuadMixer::last_torque_scale",
            states(),
            |calls| ours::after(calls).last_torque_scale(),
            |calls| rust::after(calls).last_torque_scale(),
        ),
        compared(
            wrong,
            "QuadMixer::last_torque",
            states(),
            |calls| ours::after(calls).last_torque(),
            |calls| rust::after(calls).torque(),
        ),
        compared(
            wrong,
            "QuadMixer, Debug",
            states().first(TEXTS),
            |calls| format!("{:?}", ours::after(calls)),
            |calls| text_with_torque(&rust::after(calls)),
        ),
        compared(
            wrong,
            "motors_to_torque_signs",
            motors().first(MANY),
            ours::torque_sums,
            rust::torque_sums,
        ),
    ]);
    if wrong {
        rows.extend(slips());
    }
    rows
}

// ---- calls

/// How many calls stand on one state.
const CALLS: usize = 8;

/// Eight calls, of any mixes but for the last, which is of one where one is named.
fn chains(last: Option<Mix>) -> Inputs<impl Fn(u64) -> [Call; CALLS]> {
    const SEED: u64 = 30;
    let kinds =
        format!("the last of 8 calls of any mixes on one state, all compared; {COMMAND_KINDS}");
    seeded(&kinds, SEED, FEWER, move |n| {
        let mut random = Random::new(SEED, n);
        let mut calls = [(); CALLS].map(|_| {
            let mix = random.one_of(&MIXES);
            call(&mut random, mix)
        });
        if let Some(mix) = last {
            calls[CALLS - 1].mix = mix;
        }
        calls
    })
}

/// States that calls lead to.
fn states() -> Inputs<impl Fn(u64) -> [Call; CALLS]> {
    let kinds = "after 8 calls of any mixes; kinds and seed as above".into();
    Inputs {
        kinds,
        ..chains(None)
    }
}

// ---- the torque, which the Rust's state has not

/// The torque of the last motors: ours as it is stored, the Rust's worked out.
trait Torque {
    fn torque(&self) -> [f32; 3];
}

impl Torque for ours_quad::QuadMixer {
    fn torque(&self) -> [f32; 3] {
        self.last_torque()
    }
}

impl Torque for relay_mix_quad::QuadMixer {
    fn torque(&self) -> [f32; 3] {
        relay_mix_quad::motors_to_torque_signs(self.last_motors())
    }
}

/// The Rust's text of a state, with the torque as a last field. Fields are private, and such a text
/// is how their names and values show.
fn text_with_torque(mixer: &relay_mix_quad::QuadMixer) -> String {
    let text = format!("{mixer:?}");
    let fields = text.trim_end_matches(" }");
    format!("{fields}, last_torque: {:?} }}", mixer.torque())
}

// ---- both sides

both_sides! {
    side = ours_quad | relay_mix_quad;

    use side::{motors_to_torque_signs, QuadMixer};

    // ---- names, signatures and traits

    const _: () = shown::<QuadMixer>();
    const _: fn() -> QuadMixer = QuadMixer::new;
    const _: fn(&QuadMixer) -> [f32; 4] = QuadMixer::last_motors;
    const _: fn(&QuadMixer) -> f32 = QuadMixer::last_torque_scale;
    const _: fn(&mut QuadMixer, [f32; 3], f32) -> [f32; 4] = QuadMixer::mix;
    const _: [fn(&mut QuadMixer, [f32; 3], f32, f32) -> [f32; 4]; 3] = [
        QuadMixer::mix_thrust_floor,
        QuadMixer::mix_priority,
        QuadMixer::mix_airmode,
    ];
    const _: fn(&mut QuadMixer, usize, [f32; 3], f32, f32) -> [f32; 4] =
        QuadMixer::mix_rotor_out;
    const _: fn([f32; 4]) -> [f32; 3] = motors_to_torque_signs;

    /// Made by the compiler.
    const FRESH: QuadMixer = QuadMixer::new();

    // ---- calls

    rooms::quad_calls!(Torque::torque);

    /// Fresh states: made when the program runs, and by the compiler.
    pub fn fresh() -> [State; 2] {
        [state(&QuadMixer::new()), state(&FRESH)]
    }

    /// A state that these calls lead to.
    pub fn after(calls: &[Call]) -> QuadMixer {
        let mut mixer = QuadMixer::new();
        for call in calls {
            mix(&mut mixer, call);
        }
        mixer
    }

    /// What each of these calls returns, one after another, and the state that they lead to.
    pub fn chain<const N: usize>(calls: &[Call; N]) -> ([[f32; 4]; N], State) {
        let mut mixer = QuadMixer::new();
        (calls.map(|call| mix(&mut mixer, &call)), state(&mixer))
    }

    pub fn torque_sums(&motors: &[f32; 4]) -> [f32; 3] {
        motors_to_torque_signs(motors)
    }
}

// ---- wrong on purpose

/// Slips that a binding can make, each of which the inputs have to show.
fn slips() -> Vec<Row> {
    vec![
        compared(
            WHOLE,
            "a fresh state for each call",
            states(),
            |calls| ours::after(&calls[CALLS - 1..]).last_torque_scale(),
            |calls| rust::after(calls).last_torque_scale(),
        ),
        compared(
            WHOLE,
            "motors of the call before",
            states(),
            |calls| ours::after(&calls[..CALLS - 1]).last_motors(),
            |calls| rust::after(calls).last_motors(),
        ),
        compared(
            WHOLE,
            "torque of the call before",
            states(),
            |calls| ours::after(&calls[..CALLS - 1]).last_torque(),
            |calls| rust::after(calls).torque(),
        ),
        compared(
            WHOLE,
            "torque of a fresh state",
            states(),
            |_| ours::after(&[]).last_torque(),
            |calls| rust::after(calls).torque(),
        ),
        compared(
            WHOLE,
            "torque that was asked for",
            states(),
            |calls| calls[CALLS - 1].torque,
            |calls| rust::after(calls).torque(),
        ),
    ]
}
