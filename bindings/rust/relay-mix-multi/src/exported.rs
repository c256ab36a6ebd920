//! The exported functions of the archive, and a safe call of each. All that is unsafe in this crate
//! stands here.
//!
//! What every call owes is said in include/footspandle.h, 'What the caller owes'. Of that the types
//! here carry 1 to 4: a reference is not null, is aligned, points to a whole value that was written,
//! and where it is exclusive nothing else reads or writes that value. A slice passes with its own
//! length. 5, the processor's rounding mode, Rust takes for granted everywhere. The gate holds these
//! declarations to the Rattle source, by bindings/declarations; bindings/rust/test runs every one.

use crate::Wrench;

// A wrench passes as four floats, and a row is four floats: they touch, so the layouts are the same.
const _: () = assert!(core::mem::size_of::<Wrench>() == 16);
const _: () = assert!(core::mem::size_of::<[[f32; 4]; 6]>() == 4 * 24);

extern "C" {
    fn footspandle_clamp01(x: f32) -> f32;
    fn footspandle_mixer_mix(
        rows: *const f32,
        rows_length: usize,
        w: *const Wrench,
        out: *mut f32,
        out_length: usize,
    ) -> u32;
    fn footspandle_mixer_mix_thrust_floor(
        rows: *const f32,
        rows_length: usize,
        w: *const Wrench,
        floor: f32,
        out: *mut f32,
        out_length: usize,
        scale: *mut f32,
    ) -> u32;
    fn footspandle_hex_x(rows: *mut [[f32; 4]; 6]);
    fn footspandle_octo_coax(rows: *mut [[f32; 4]; 8]);
    fn footspandle_mix_thrust_floor_hex_x(w: *const Wrench, floor: f32, out: *mut [f32; 6]) -> f32;
    fn footspandle_mix_thrust_floor_octo_coax(
        w: *const Wrench,
        floor: f32,
        out: *mut [f32; 8],
    ) -> f32;
}

pub fn clamp01(x: f32) -> f32 {
    // SAFETY: nothing is lent.
    unsafe { footspandle_clamp01(x) }
}

/// The number: 0, or 10 where there are over 64 outputs.
pub fn mixer_mix<const M: usize>(rows: &[[f32; 4]; M], w: &Wrench, out: &mut [f32; M]) -> u32 {
    let rows = rows.as_flattened();
    // SAFETY: rows and outputs pass with their own lengths, and `w` points to a whole value; `out` is
    // exclusive, so that it overlaps nothing.
    unsafe { footspandle_mixer_mix(rows.as_ptr(), rows.len(), w, out.as_mut_ptr(), out.len()) }
}

/// The same number. Where it is 10, outputs and scale stay as they were.
pub fn mixer_mix_thrust_floor<const M: usize>(
    rows: &[[f32; 4]; M],
    w: &Wrench,
    floor: f32,
    out: &mut [f32; M],
    scale: &mut f32,
) -> u32 {
    let rows = rows.as_flattened();
    // SAFETY: as for `mixer_mix`; `scale` is exclusive too.
    unsafe {
        footspandle_mixer_mix_thrust_floor(
            rows.as_ptr(),
            rows.len(),
            w,
            floor,
            out.as_mut_ptr(),
            out.len(),
            scale,
        )
    }
}

pub fn hex_x() -> [[f32; 4]; 6] {
    let mut rows = [[0.0; 4]; 6];
    // SAFETY: `rows` is a local of 24 floats.
    unsafe { footspandle_hex_x(&mut rows) };
    rows
}

pub fn octo_coax() -> [[f32; 4]; 8] {
    let mut rows = [[0.0; 4]; 8];
    // SAFETY: `rows` is a local of 32 floats.
    unsafe { footspandle_octo_coax(&mut rows) };
    rows
}

/// The outputs, and the scale.
pub fn mix_thrust_floor_hex_x(w: &Wrench, floor: f32) -> ([f32; 6], f32) {
    let mut out = [0.0; 6];
    // SAFETY: `w` points to a whole value, and `out` is a local that nothing else refers to.
    let scale = unsafe { footspandle_mix_thrust_floor_hex_x(w, floor, &mut out) };
    (out, scale)
}

/// The outputs, and the scale.
pub fn mix_thrust_floor_octo_coax(w: &Wrench, floor: f32) -> ([f32; 8], f32) {
    let mut out = [0.0; 8];
    // SAFETY: as for `mix_thrust_floor_hex_x`.
    let scale = unsafe { footspandle_mix_thrust_floor_octo_coax(w, floor, &mut out) };
    (out, scale)
}
