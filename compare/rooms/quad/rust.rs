//! The Rust's side. What is compared after a call are the motors that it returns and what the
//! readers then give. The Rust has no reader of the torque: there what `motors_to_torque_signs`
//! gives of its motors stands for it.

use relay_mix_quad::{motors_to_torque_signs, passed_on, QuadMixer};

use super::call::{self, sums, Call, State};
use super::chains::{Chain, CALLS};

/// `state` and `mix` over the `QuadMixer` in scope, whichever crate's it is: the Rust's own, or the
/// one of bindings/rust, which has the same methods. What gives the torque of a mixer is named.
#[macro_export]
macro_rules! quad_calls {
    ($torque:path) => {
        /// What the readers give.
        pub fn state(mixer: &QuadMixer) -> $crate::quad::call::State {
            let (motors, scale) = (mixer.last_motors(), mixer.last_torque_scale());
            $crate::quad::call::state(motors, scale, $torque(mixer))
        }

        /// The motors that a call returns. It changes the mixer.
        #[inline]
        pub fn mix(mixer: &mut QuadMixer, call: &$crate::quad::call::Call) -> [f32; 4] {
            use $crate::quad::call::{Call, Mix};
            let Call {
                torque,
                thrust,
                floor,
                ..
            } = *call;
            match call.mix {
                Mix::Plain => mixer.mix(torque, thrust),
                Mix::ThrustFloor => mixer.mix_thrust_floor(torque, thrust, floor),
                Mix::Priority => mixer.mix_priority(torque, thrust, floor),
                Mix::Airmode => mixer.mix_airmode(torque, thrust, floor),
                Mix::RotorOut => mixer.mix_rotor_out(call.rotor, torque, thrust, floor),
            }
        }
    };
}

quad_calls!(torque);

/// The torque of the last motors, worked out.
fn torque(mixer: &QuadMixer) -> [f32; 3] {
    motors_to_torque_signs(mixer.last_motors())
}

/// The state as the Rust has it, without the sums.
pub fn mixer(&[a, b, c, d, scale, ..]: &State) -> QuadMixer {
    passed_on::mixer([a, b, c, d], scale)
}

/// What readers are to give of a state of any bits: the Rust's of what it has, and the sums that
/// stand there, which need not be those of the motors.
pub fn read(state: &State) -> State {
    let mixer = mixer(state);
    call::state(mixer.last_motors(), mixer.last_torque_scale(), sums(state))
}

/// The motors returned, and the state afterwards.
pub type After = ([f32; 4], State);

pub fn called((before, call): &(State, Call)) -> After {
    let mut mixer = mixer(before);
    let motors = mix(&mut mixer, call);
    (motors, state(&mixer))
}

pub fn chained(chain: &Chain) -> [After; CALLS] {
    let mut mixer = mixer(&chain.start);
    chain.calls.map(|call| {
        let motors = mix(&mut mixer, &call);
        (motors, state(&mixer))
    })
}

/// After a call that updates the state: the motors answered are those of the new state.
pub fn returned(state: State) -> After {
    let [a, b, c, d, ..] = state;
    ([a, b, c, d], state)
}
