//! The quad's mixer and `MixerN`, proved: the names and signatures of the Rust crate relay-mix-quad
//! over the archive libexported.a.
//!
//! Follows relay-mix-quad (Apache-2.0, see NOTICE); changed: each function calls the exported function
//! of its name, but for the two `const fn new`; `from_geometry`, `hexa_x` and `QuadMixer`'s `Default`
//! are left out; the module [`sheet`] is added, and so is [`QuadMixer::last_torque`]: the Rust's
//! `QuadMixer` has no such method. The state has three numbers more for it, so that it is 32 bytes where
//! the Rust's is 20, and `Debug` shows them.
//!
//! An autopilot that uses relay-mix-quad, and none of the three that are left out, changes the path in
//! its manifest, and no line of its code; the archive has to be built before it (README, 'Call it from
//! Rust'). Answers are the same by bits, a NaN being any NaN: bindings/rust/test compares them by
//! running both. What each function promises, for every bit pattern of every argument, is said in full
//! in include/footspandle.h; here is what a caller needs at hand. Nothing here panics.

#![no_std]
#![deny(unsafe_code)]

#[allow(unsafe_code)]
mod exported;
pub mod sheet;

/// The quad's state: the motors of the last mix, the recorded torque scale, and the torque that the
/// last motors give. It is laid out as C lays it out, so that it can be lent as it stands.
#[derive(Clone, Copy, Debug)]
#[repr(C)]
pub struct QuadMixer {
    last_motors: [f32; 4],
    last_torque_scale: f32,
    last_torque: [f32; 3],
}

impl QuadMixer {
    /// A fresh state: four motors of +0, the scale 1, and a torque of three +0.
    // No `Default`: the Rust's derived one has the scale 0, and another of that name would mislead.
    #[allow(clippy::new_without_default)]
    pub const fn new() -> Self {
        Self {
            last_motors: [0.0; 4],
            last_torque_scale: 1.0,
            last_torque: [0.0; 3],
        }
    }

    /// The motors of the last mix, M1 to M4; in a fresh state four +0.
    pub fn last_motors(&self) -> [f32; 4] {
        exported::quad_last_motors(self)
    }

    /// The recorded scale, in 0..1. Thrust-floor records the scale that it gave the torque at,
    /// rotor-out records 1, and the other mixes leave what is there.
    pub fn last_torque_scale(&self) -> f32 {
        exported::quad_last_torque_scale(self)
    }

    /// The torque that the last motors give, as it is stored: the roll, pitch and yaw sums that
    /// [`motors_to_torque_signs`] gives of [`QuadMixer::last_motors`], by bits, without working them
    /// out. In a fresh state three +0.
    pub fn last_torque(&self) -> [f32; 3] {
        exported::quad_last_torque(self)
    }

    /// Plain: keeps the torque as far as no motor would go under 0, and gives up thrust. Every motor
    /// lies in 0..1. There is no floor: a motor may stop.
    pub fn mix(&mut self, torque_body: [f32; 3], thrust: f32) -> [f32; 4] {
        exported::quad_mix(self, &torque_body, thrust);
        self.last_motors
    }

    /// Thrust-floor: keeps the thrust, lifted to the floor, and gives up torque by one scale, which is
    /// recorded. Every motor lies in floor..1, a command that fits is not cut, and a larger delta never
    /// gets a smaller motor.
    pub fn mix_thrust_floor(&mut self, torque_body: [f32; 3], thrust: f32, floor: f32) -> [f32; 4] {
        exported::quad_mix_thrust_floor(self, &torque_body, thrust, floor);
        self.last_motors
    }

    /// Priority: keeps the thrust, lifted to the floor, and gives up yaw, and roll and pitch, each by a
    /// scale of its own. Every motor lies in floor..1, and a command that fits in both orders is not
    /// cut.
    pub fn mix_priority(&mut self, torque_body: [f32; 3], thrust: f32, floor: f32) -> [f32; 4] {
        exported::quad_mix_priority(self, &torque_body, thrust, floor);
        self.last_motors
    }

    /// Airmode: keeps the torque as far as it fits between idle and 1, and moves the thrust for it.
    /// Every motor lies in idle..1, and a command that fits is not cut.
    pub fn mix_airmode(&mut self, torque_body: [f32; 3], thrust: f32, idle: f32) -> [f32; 4] {
        exported::quad_mix_airmode(self, &torque_body, thrust, idle);
        self.last_motors
    }

    /// Rotor-out: thrust, roll and pitch without rotor `failed`, 0 to 3 for M1 to M4; from 4 on none is
    /// lost. The lost one is +0, every other lies in floor..1, yaw is dropped, and the scale 1 is
    /// recorded.
    pub fn mix_rotor_out(
        &mut self,
        failed: usize,
        torque_body: [f32; 3],
        thrust: f32,
        floor: f32,
    ) -> [f32; 4] {
        exported::quad_mix_rotor_out(self, failed, &torque_body, thrust, floor);
        self.last_motors
    }
}

/// The roll, pitch and yaw that four motors give by the quad's rows: sums, and not signs. Motors are
/// taken as they are, so a sum can be a NaN.
pub fn motors_to_torque_signs(motors: [f32; 4]) -> [f32; 3] {
    exported::motors_to_torque_signs(&motors)
}

/// How many rows a [`MixerN`] has.
pub const MAX_ROTORS: usize = 8;

/// A frame of up to eight rotors: a row of thrust, roll, pitch and yaw for each, and how many there
/// are. The mix uses all eight rows, whatever the count is.
#[derive(Clone, Copy)]
pub struct MixerN {
    mix: [[f32; 4]; MAX_ROTORS],
    n: usize,
}

impl MixerN {
    /// A frame of these rows. A count over 8 is cut to 8; nothing else is checked.
    pub const fn new(mix: [[f32; 4]; MAX_ROTORS], n: usize) -> Self {
        let n = if n > MAX_ROTORS { MAX_ROTORS } else { n };
        MixerN { mix, n }
    }

    /// The count.
    pub fn n(&self) -> usize {
        exported::mixer_n_n(&self.mix, self.n)
    }

    /// The quad's four rows, four rows of +0, and the count 4.
    pub fn quad_x() -> Self {
        let (mix, n) = exported::mixer_n_quad_x();
        MixerN { mix, n }
    }

    /// Torque and thrust to eight motors, each in 0..1 for every matrix. Each row's sum is treated, all
    /// are lowered by what the largest has over 1, and each is limited.
    pub fn mix(&self, torque_body: [f32; 3], thrust: f32) -> [f32; MAX_ROTORS] {
        exported::mixer_n_mix(&self.mix, self.n, &torque_body, thrust)
    }

    /// The thrust, roll, pitch and yaw that eight motors give by the matrix. The motors are treated and
    /// the matrix is not, so a sum can be a NaN.
    pub fn achieved_wrench(&self, motors: &[f32; MAX_ROTORS]) -> [f32; 4] {
        exported::mixer_n_achieved_wrench(&self.mix, self.n, motors)
    }
}

/// A foreign function cannot be called in a `const fn`, so the two `new` are written here once more.
/// These hold them to the exported ones.
#[cfg(test)]
mod tests {
    use super::*;

    /// What stands in memory that is lent to be written: no function answers it.
    const LENT: f32 = f32::from_bits(0x5aa5_5aa5);

    /// Made by the compiler, as an autopilot's static state is.
    const FRESH: QuadMixer = QuadMixer::new();

    fn bits(floats: &[f32]) -> impl Iterator<Item = u32> + '_ {
        floats.iter().map(|x| x.to_bits())
    }

    #[test]
    fn quad_new_is_the_exported_one() {
        let mut state = QuadMixer {
            last_motors: [LENT; 4],
            last_torque_scale: LENT,
            last_torque: [LENT; 3],
        };
        exported::quad_new(&mut state);
        for ours in [QuadMixer::new(), FRESH] {
            assert!(bits(&ours.last_motors).eq(bits(&state.last_motors)));
            assert_eq!(
                ours.last_torque_scale.to_bits(),
                state.last_torque_scale.to_bits()
            );
            assert!(bits(&ours.last_torque).eq(bits(&state.last_torque)));
        }
    }

    #[test]
    fn mixer_n_new_is_the_exported_one() {
        let mut rows = [[LENT; 4]; MAX_ROTORS];
        let special = [
            0.0,
            -0.0,
            1.0,
            f32::MAX,
            f32::INFINITY,
            f32::NEG_INFINITY,
            f32::from_bits(1),
        ];
        for (i, x) in rows.iter_mut().flatten().enumerate() {
            *x = special[i % special.len()];
        }
        for n in (0..=17).chain([255, usize::MAX - 1, usize::MAX]) {
            let ours = MixerN::new(rows, n);
            let (mix, count) = exported::mixer_n_new(&rows, n);
            assert_eq!(ours.n, count);
            assert!(bits(ours.mix.as_flattened()).eq(bits(mix.as_flattened())));
        }
    }
}
