//! Frames of any rows, proved: the names and signatures of the Rust crate relay-mix-multi over the
//! archive libexported.a.
//!
//! Follows relay-mix-multi (Apache-2.0, see NOTICE); changed: each function calls the exported function
//! of its name, but for `Mixer::new`, which keeps its rows; a mixer of more than 64 rotors does not
//! compile; the module [`thrust_floor`] is added.
//!
//! An autopilot that uses relay-mix-multi for up to 64 rotors changes the path in its manifest, and no
//! line of its code; the archive has to be built before it (README, 'Call it from Rust'). Answers are
//! the same by bits, a NaN being any NaN: bindings/rust/test compares them by running both. What each
//! function promises, for every bit pattern of every argument, is said in full in
//! include/footspandle.h; here is what a caller needs at hand. Nothing here panics.

#![no_std]
#![deny(unsafe_code)]

#[allow(unsafe_code)]
mod exported;
pub mod thrust_floor;

/// What is asked of a frame: a collective thrust, and a torque about each axis. It is laid out as C
/// lays it out, so that it can be lent as it stands.
#[derive(Clone, Copy, Debug, PartialEq)]
#[repr(C)]
pub struct Wrench {
    /// Collective thrust.
    pub thrust: f32,
    /// Roll torque.
    pub roll: f32,
    /// Pitch torque.
    pub pitch: f32,
    /// Yaw torque.
    pub yaw: f32,
}

/// A frame of M rotors, each with a row of what thrust, roll, pitch and yaw count for it. M is at most
/// 64, so that neither its mix nor [`thrust_floor::mix`] is ever refused. What the archive refuses has
/// this number:
///
/// - 10: there are over 64 outputs, or rows that are not four floats for each
#[derive(Clone, Copy, Debug)]
pub struct Mixer<const M: usize> {
    rows: [[f32; 4]; M],
}

/// x held to 0..1: a NaN gives +0, +infinity 1, and a -0 stays.
#[inline]
pub fn clamp01(x: f32) -> f32 {
    exported::clamp01(x)
}

impl<const M: usize> Mixer<M> {
    /// Holds while M is no more than the exported mix takes. It is evaluated for each M that `new` is
    /// built for, since there is no other way to a mixer, and fails the build of a larger one.
    const AT_MOST_64: () = assert!(
        M <= 64,
        "a Mixer has at most 64 rotors: Footspandle refuses more outputs (number 10)"
    );

    /// A mixer of these rows. One of more than 64 rotors does not compile:
    ///
    /// ```
    /// let most = relay_mix_multi::Mixer::new([[1.0; 4]; 64]);
    /// ```
    /// ```compile_fail,E0080
    /// let more = relay_mix_multi::Mixer::new([[1.0; 4]; 65]);
    /// ```
    pub fn new(rows: [[f32; 4]; M]) -> Self {
        let () = Self::AT_MOST_64;
        Self { rows }
    }

    /// A wrench to the commands of the rotors, each in 0..1 for every row and wrench: its row's sum of
    /// four products, clamped by itself. There is no floor: a motor may stop.
    pub fn mix(&self, w: Wrench) -> [f32; M] {
        let mut out = [0.0; M];
        let number = exported::mixer_mix(&self.rows, &w, &mut out);
        // Never refused: M is at most 64, and there are four floats for each output.
        debug_assert_eq!(number, 0);
        out
    }
}

/// Six rotors, 60 degrees apart, each spinning against its neighbours.
pub fn hex_x() -> Mixer<6> {
    Mixer::new(exported::hex_x())
}

/// Four arms with two rotors each, one over the other, which spin against each other.
pub fn octo_coax() -> Mixer<8> {
    Mixer::new(exported::octo_coax())
}

/// `mix` takes it that no count up to 64 is refused. These hold the exported mix to that, and to its
/// refusal of the next.
#[cfg(test)]
mod tests {
    use super::*;

    const W: Wrench = Wrench {
        thrust: 0.5,
        roll: 0.25,
        pitch: 0.0,
        yaw: 0.0,
    };

    /// What stands in the outputs before the call: no function answers it.
    const LENT: f32 = -1.0;

    /// The number, and the outputs.
    fn mixed<const M: usize>() -> (u32, [f32; M]) {
        let mut out = [LENT; M];
        let number = exported::mixer_mix(&[[1.0, 1.0, 0.0, 0.0]; M], &W, &mut out);
        (number, out)
    }

    #[test]
    fn up_to_64_outputs_are_mixed() {
        assert_eq!(mixed(), (0, []));
        assert_eq!(mixed(), (0, [0.75; 1]));
        assert_eq!(mixed(), (0, [0.75; 63]));
        assert_eq!(mixed(), (0, [0.75; 64]));
    }

    #[test]
    fn a_65th_output_is_refused() {
        assert_eq!(mixed(), (10, [LENT; 65]));
        assert_eq!(mixed(), (10, [LENT; 1000]));
    }
}
