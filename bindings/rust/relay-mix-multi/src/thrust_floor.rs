//! Thrust-floor for any frame. It is ours: the Rust crate relay-mix-multi has none.
//!
//! [`Mixer::mix`] clamps each motor by itself, so that a hard roll costs lift. Here the thrust is kept,
//! lifted to the floor, and torque is given up by one scale over all rotors, as relay-mix-quad's
//! `mix_thrust_floor` does for four. A row's thrust is not read: every rotor has the same collective.
//!
//! ```
//! use relay_mix_multi::{hex_x, thrust_floor, Wrench};
//!
//! let hard = Wrench { thrust: 0.75, roll: 0.5, pitch: 0.0, yaw: 0.0 };
//! assert_eq!(hex_x().mix(hard), [0.25, 1.0, 1.0, 0.5, 0.5, 1.0]); // a lift of 0.708
//! let floored = thrust_floor::hex_x(hard, 0.125);
//! assert_eq!(floored.motors, [0.5, 1.0, 0.875, 0.625, 0.625, 0.875]); // a lift of 0.75
//! assert_eq!(floored.scale, 0.5);
//! ```
//!
//! Of the lift, the mean of the motors, nothing is promised. That it stays, up to rounding, where the
//! deltas, what the torque asks of the rotors, cancel, as those of hex_x and octo_coax do, is arithmetic
//! and not proved.

use crate::{exported, Mixer, Wrench};

/// What a thrust-floor mix of M rotors answers.
#[derive(Clone, Copy, Debug, PartialEq)]
pub struct Floored<const M: usize> {
    /// The commands of the rotors, each in floor..1.
    pub motors: [f32; M],
    /// The scale that the torque was given at, in 0..1 (it may be -0): 1 where the command fits, and
    /// where there are no rotors.
    pub scale: f32,
}

/// A wrench to the commands of a mixer's rotors. Every motor lies in floor..1 for every row, wrench and
/// floor, a command that fits is not cut, and a larger delta never gets a smaller motor.
pub fn mix<const M: usize>(mixer: &Mixer<M>, w: Wrench, floor: f32) -> Floored<M> {
    let mut motors = [0.0; M];
    let mut scale = 0.0;
    let number = exported::mixer_mix_thrust_floor(&mixer.rows, &w, floor, &mut motors, &mut scale);
    // Never refused, for the reasons that `Mixer::mix` has.
    debug_assert_eq!(number, 0);
    Floored { motors, scale }
}

/// [`mix`] of [`hex_x`](crate::hex_x), with no rows passed.
pub fn hex_x(w: Wrench, floor: f32) -> Floored<6> {
    let (motors, scale) = exported::mix_thrust_floor_hex_x(&w, floor);
    Floored { motors, scale }
}

/// [`mix`] of [`octo_coax`](crate::octo_coax), with no rows passed.
pub fn octo_coax(w: Wrench, floor: f32) -> Floored<8> {
    let (motors, scale) = exported::mix_thrust_floor_octo_coax(&w, floor);
    Floored { motors, scale }
}

/// `mix` takes it that no count up to 64 is refused. These hold the exported mix to that, and to its
/// refusal of the next; and the two frames' own functions to `mix` of their rows.
#[cfg(test)]
mod tests {
    use super::*;

    const FLOOR: f32 = 0.125;

    /// Twice the roll that fits.
    const HARD: Wrench = Wrench {
        thrust: 0.5,
        roll: 1.0,
        pitch: 0.0,
        yaw: 0.0,
    };

    /// What stands in outputs and scale before the call: no function answers it.
    const LENT: f32 = -1.0;

    /// The number, the outputs and the scale. The rows' thrust is a NaN, since it is not read.
    fn mixed<const M: usize>() -> (u32, [f32; M], f32) {
        let rows = [[f32::NAN, 1.0, 0.0, 0.0]; M];
        let (mut out, mut scale) = ([LENT; M], LENT);
        let number = exported::mixer_mix_thrust_floor(&rows, &HARD, FLOOR, &mut out, &mut scale);
        (number, out, scale)
    }

    #[test]
    fn up_to_64_outputs_are_mixed() {
        assert_eq!(mixed(), (0, [1.0; 1], 0.5));
        assert_eq!(mixed(), (0, [1.0; 63], 0.5));
        assert_eq!(mixed(), (0, [1.0; 64], 0.5));
    }

    #[test]
    fn no_outputs_have_the_scale_1() {
        assert_eq!(mixed(), (0, [], 1.0));
    }

    #[test]
    fn a_65th_output_is_refused() {
        assert_eq!(mixed(), (10, [LENT; 65], LENT));
        assert_eq!(mixed(), (10, [LENT; 1000], LENT));
    }

    #[test]
    fn the_frames_are_mixed_by_their_rows() {
        assert_eq!(hex_x(HARD, FLOOR), mix(&crate::hex_x(), HARD, FLOOR));
        assert_eq!(
            octo_coax(HARD, FLOOR),
            mix(&crate::octo_coax(), HARD, FLOOR)
        );
    }
}
