//! Ours, as the crate `exported` gives it to C: a reference passes as a pointer.

use comparing::inputs::LENT;

use super::call::{self, Call, Mix, State};
use super::chains::{Chain, CALLS};
use super::rust::{returned, After};

extern "C" {
    fn footspandle_quad32_new(state: *mut State);
    fn footspandle_quad32_last_motors(state: *const State, motors: *mut [f32; 4]);
    fn footspandle_quad32_last_torque_scale(state: *const State) -> f32;
    pub fn footspandle_quad32_last_torque(state: *const State, sums: *mut [f32; 3]);
    pub fn footspandle_quad32_mix(state: *mut State, torque_body: *const [f32; 3], thrust: f32);
    pub fn footspandle_quad32_mix_thrust_floor(
        state: *mut State,
        torque_body: *const [f32; 3],
        thrust: f32,
        floor: f32,
    );
    pub fn footspandle_quad32_mix_priority(
        state: *mut State,
        torque_body: *const [f32; 3],
        thrust: f32,
        floor: f32,
    );
    pub fn footspandle_quad32_mix_airmode(
        state: *mut State,
        torque_body: *const [f32; 3],
        thrust: f32,
        idle: f32,
    );
    pub fn footspandle_quad32_mix_rotor_out(
        state: *mut State,
        failed: usize,
        torque_body: *const [f32; 3],
        thrust: f32,
        floor: f32,
    );
    pub fn footspandle_motors_to_torque_signs(motors: *const [f32; 4], sums: *mut [f32; 3]);
}

#[inline]
pub fn new() -> State {
    let mut state = [LENT; 8];
    unsafe { footspandle_quad32_new(&mut state) };
    state
}

/// What the three readers give.
#[inline]
pub fn readers(state: &State) -> State {
    let (mut motors, mut sums) = ([LENT; 4], [LENT; 3]);
    unsafe { footspandle_quad32_last_motors(state, &mut motors) };
    unsafe { footspandle_quad32_last_torque(state, &mut sums) };
    let scale = unsafe { footspandle_quad32_last_torque_scale(state) };
    call::state(motors, scale, sums)
}

/// The state after a call, which updates it where it stands.
#[inline]
pub fn mixed(state: &State, call: &Call) -> State {
    let Call {
        torque,
        thrust,
        floor,
        ..
    } = *call;
    let mut lent = *state;
    let (at, from) = (&mut lent, &torque);
    unsafe {
        match call.mix {
            Mix::Plain => footspandle_quad32_mix(at, from, thrust),
            Mix::ThrustFloor => footspandle_quad32_mix_thrust_floor(at, from, thrust, floor),
            Mix::Priority => footspandle_quad32_mix_priority(at, from, thrust, floor),
            Mix::Airmode => footspandle_quad32_mix_airmode(at, from, thrust, floor),
            Mix::RotorOut => footspandle_quad32_mix_rotor_out(at, call.rotor, from, thrust, floor),
        }
    }
    lent
}

#[inline]
pub fn torque_signs(motors: &[f32; 4]) -> [f32; 3] {
    let mut sums = [LENT; 3];
    unsafe { footspandle_motors_to_torque_signs(motors, &mut sums) };
    sums
}

// ---- as the Rust's answers are compared

/// Ours updates the state, whose motors are those returned and those stored.
pub fn called((state, call): &(State, Call)) -> After {
    returned(mixed(state, call))
}

pub fn chained(chain: &Chain) -> [After; CALLS] {
    let mut state = chain.start;
    chain.calls.map(|call| {
        state = mixed(&state, &call);
        returned(state)
    })
}
