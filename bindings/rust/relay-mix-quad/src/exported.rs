//! The exported functions of the archive, and a safe call of each. All that is unsafe in this crate
//! stands here.
//!
//! What every call owes is said in include/footspandle.h, 'What the caller owes'. Of that the types
//! here carry 1 to 4: a reference is not null, is aligned, points to a whole value that was written,
//! and where it is exclusive nothing else reads or writes that value. A reference to an array points
//! to as many elements as its type says, and a slice passes with its own length. 5, the processor's
//! rounding mode, Rust takes for granted everywhere. The gate holds these declarations to the Rattle
//! source, by bindings/declarations; bindings/rust/test runs every one.

use crate::{QuadMixer, MAX_ROTORS};

type Rows = [[f32; 4]; MAX_ROTORS];

// A state is eight floats, and eight rows are 32: they touch, so the layouts are the same. The names of
// the functions over a state have its size in bytes.
const _: () = assert!(core::mem::size_of::<QuadMixer>() == 32);
const _: () = assert!(core::mem::size_of::<Rows>() == 4 * 32);

extern "C" {
    fn footspandle_quad32_last_motors(state: *const QuadMixer, motors: *mut [f32; 4]);
    fn footspandle_quad32_last_torque_scale(state: *const QuadMixer) -> f32;
    fn footspandle_quad32_last_torque(state: *const QuadMixer, sums: *mut [f32; 3]);
    fn footspandle_quad32_mix(state: *mut QuadMixer, torque_body: *const [f32; 3], thrust: f32);
    fn footspandle_quad32_mix_thrust_floor(
        state: *mut QuadMixer,
        torque_body: *const [f32; 3],
        thrust: f32,
        floor: f32,
    );
    fn footspandle_quad32_mix_priority(
        state: *mut QuadMixer,
        torque_body: *const [f32; 3],
        thrust: f32,
        floor: f32,
    );
    fn footspandle_quad32_mix_airmode(
        state: *mut QuadMixer,
        torque_body: *const [f32; 3],
        thrust: f32,
        idle: f32,
    );
    fn footspandle_quad32_mix_rotor_out(
        state: *mut QuadMixer,
        failed: usize,
        torque_body: *const [f32; 3],
        thrust: f32,
        floor: f32,
    );
    fn footspandle_motors_to_torque_signs(motors: *const [f32; 4], sums: *mut [f32; 3]);
    fn footspandle_mixer_n_n(mix: *const Rows, n: usize) -> usize;
    fn footspandle_mixer_n_quad_x(mix: *mut Rows) -> usize;
    fn footspandle_mixer_n_mix(
        mix: *const Rows,
        n: usize,
        torque_body: *const [f32; 3],
        thrust: f32,
        motors: *mut [f32; MAX_ROTORS],
    );
    fn footspandle_mixer_n_achieved_wrench(
        mix: *const Rows,
        n: usize,
        motors: *const [f32; MAX_ROTORS],
        wrench: *mut [f32; 4],
    );
    fn footspandle_sheet_check(
        sheet: *const u8,
        sheet_length: usize,
        entry_number: *mut u32,
    ) -> u32;
    fn footspandle_sheet_body(
        sheet: *const u8,
        sheet_length: usize,
        i: usize,
        at: *mut usize,
    ) -> usize;
    fn footspandle_sheet_run_quad32(
        sheet: *const u8,
        sheet_length: usize,
        state: *mut QuadMixer,
        out: *mut u8,
        out_length: usize,
        entry_number: *mut u32,
    ) -> u32;
}

// ---- the quad

pub fn quad_last_motors(state: &QuadMixer) -> [f32; 4] {
    let mut motors = [0.0; 4];
    // SAFETY: both point to whole values, and `motors` is a local that nothing else refers to.
    unsafe { footspandle_quad32_last_motors(state, &mut motors) };
    motors
}

pub fn quad_last_torque_scale(state: &QuadMixer) -> f32 {
    // SAFETY: `state` points to a whole value, which is only read.
    unsafe { footspandle_quad32_last_torque_scale(state) }
}

pub fn quad_last_torque(state: &QuadMixer) -> [f32; 3] {
    let mut sums = [0.0; 3];
    // SAFETY: both point to whole values, and `sums` is a local that nothing else refers to.
    unsafe { footspandle_quad32_last_torque(state, &mut sums) };
    sums
}

pub fn quad_mix(state: &mut QuadMixer, torque_body: &[f32; 3], thrust: f32) {
    // SAFETY: both point to whole values; `state` is exclusive, so the torque is not in it.
    unsafe { footspandle_quad32_mix(state, torque_body, thrust) }
}

pub fn quad_mix_thrust_floor(
    state: &mut QuadMixer,
    torque_body: &[f32; 3],
    thrust: f32,
    floor: f32,
) {
    // SAFETY: as for `quad_mix`.
    unsafe { footspandle_quad32_mix_thrust_floor(state, torque_body, thrust, floor) }
}

pub fn quad_mix_priority(state: &mut QuadMixer, torque_body: &[f32; 3], thrust: f32, floor: f32) {
    // SAFETY: as for `quad_mix`.
    unsafe { footspandle_quad32_mix_priority(state, torque_body, thrust, floor) }
}

pub fn quad_mix_airmode(state: &mut QuadMixer, torque_body: &[f32; 3], thrust: f32, idle: f32) {
    // SAFETY: as for `quad_mix`.
    unsafe { footspandle_quad32_mix_airmode(state, torque_body, thrust, idle) }
}

pub fn quad_mix_rotor_out(
    state: &mut QuadMixer,
    failed: usize,
    torque_body: &[f32; 3],
    thrust: f32,
    floor: f32,
) {
    // SAFETY: as for `quad_mix`; every rotor number is taken.
    unsafe { footspandle_quad32_mix_rotor_out(state, failed, torque_body, thrust, floor) }
}

pub fn motors_to_torque_signs(motors: &[f32; 4]) -> [f32; 3] {
    let mut sums = [0.0; 3];
    // SAFETY: both point to whole values, and `sums` is a local that nothing else refers to.
    unsafe { footspandle_motors_to_torque_signs(motors, &mut sums) };
    sums
}

// ---- MixerN

/// The rows, and the count.
pub fn mixer_n_n(mix: &Rows, n: usize) -> usize {
    // SAFETY: `mix` points to a whole value, which is only read.
    unsafe { footspandle_mixer_n_n(mix, n) }
}

pub fn mixer_n_quad_x() -> (Rows, usize) {
    let mut mix = [[0.0; 4]; MAX_ROTORS];
    // SAFETY: `mix` is a local of 32 floats.
    let n = unsafe { footspandle_mixer_n_quad_x(&mut mix) };
    (mix, n)
}

pub fn mixer_n_mix(mix: &Rows, n: usize, torque_body: &[f32; 3], thrust: f32) -> [f32; MAX_ROTORS] {
    let mut motors = [0.0; MAX_ROTORS];
    // SAFETY: all three point to whole values, and `motors` is a local that nothing else refers to;
    // every count is taken.
    unsafe { footspandle_mixer_n_mix(mix, n, torque_body, thrust, &mut motors) };
    motors
}

pub fn mixer_n_achieved_wrench(mix: &Rows, n: usize, motors: &[f32; MAX_ROTORS]) -> [f32; 4] {
    let mut wrench = [0.0; 4];
    // SAFETY: all three point to whole values, and `wrench` is a local that nothing else refers to;
    // every count is taken.
    unsafe { footspandle_mixer_n_achieved_wrench(mix, n, motors, &mut wrench) };
    wrench
}

// ---- the command sheet

/// The number, and the entry.
pub fn sheet_check(sheet: &[u8]) -> (u32, u32) {
    let mut entry = 0;
    // SAFETY: the sheet passes with its own length, and `entry` is a local.
    let number = unsafe { footspandle_sheet_check(sheet.as_ptr(), sheet.len(), &mut entry) };
    (number, entry)
}

/// Where the body begins in the sheet, and its length.
pub fn sheet_body(sheet: &[u8], i: usize) -> (usize, usize) {
    let mut at = 0;
    // SAFETY: the sheet passes with its own length, and `at` is a local; every entry number is taken.
    let length = unsafe { footspandle_sheet_body(sheet.as_ptr(), sheet.len(), i, &mut at) };
    (at, length)
}

/// The number, and the entry.
pub fn sheet_run(sheet: &[u8], state: &mut QuadMixer, out: &mut [u8]) -> (u32, u32) {
    let mut entry = 0;
    // SAFETY: sheet and output pass with their own lengths; state and output are exclusive, so they
    // are in no other of these, and `entry` is a local.
    let number = unsafe {
        footspandle_sheet_run_quad32(
            sheet.as_ptr(),
            sheet.len(),
            state,
            out.as_mut_ptr(),
            out.len(),
            &mut entry,
        )
    };
    (number, entry)
}

// ---- the two that `new` is held to

#[cfg(test)]
pub use held_to::{mixer_n_new, quad_new};

#[cfg(test)]
mod held_to {
    use super::*;

    extern "C" {
        fn footspandle_quad32_new(state: *mut QuadMixer);
        fn footspandle_mixer_n_new(rows: *const Rows, n: usize, mix: *mut Rows) -> usize;
    }

    pub fn quad_new(state: &mut QuadMixer) {
        // SAFETY: `state` points to a whole value, and is exclusive.
        unsafe { footspandle_quad32_new(state) }
    }

    /// The rows, and the count.
    pub fn mixer_n_new(rows: &Rows, n: usize) -> (Rows, usize) {
        let mut mix = [[0.0; 4]; MAX_ROTORS];
        // SAFETY: both point to 32 floats, and `mix` is a local that nothing else refers to.
        let n = unsafe { footspandle_mixer_n_new(rows, n, &mut mix) };
        (mix, n)
    }
}
