//! Ours, as the crate `exported` gives it to C.

use comparing::inputs::LENT;

use super::inputs::{scaled, Floored, Scaled};
use crate::frames::frame::Wrench;

extern "C" {
    pub fn footspandle_mixer_mix_thrust_floor(
        rows: *const f32,
        rows_length: usize,
        w: *const Wrench,
        floor: f32,
        out: *mut f32,
        out_length: usize,
        scale: *mut f32,
    ) -> u32;
    fn footspandle_mix_thrust_floor_hex_x(w: *const Wrench, floor: f32, out: *mut [f32; 6]) -> f32;
    pub fn footspandle_mix_thrust_floor_octo_coax(
        w: *const Wrench,
        floor: f32,
        out: *mut [f32; 8],
    ) -> f32;
}

/// The number that a call answers.
#[inline]
fn mix_thrust_floor(
    rows: &[f32],
    wrench: &Wrench,
    floor: f32,
    out: &mut [f32],
    scale: &mut f32,
) -> u32 {
    unsafe {
        footspandle_mixer_mix_thrust_floor(
            rows.as_ptr(),
            rows.len(),
            wrench,
            floor,
            out.as_mut_ptr(),
            out.len(),
            scale,
        )
    }
}

pub fn by_rows(f: &Floored) -> Scaled {
    scaled(mix_thrust_floor, f)
}

/// The motors, and the scale.
#[inline]
pub fn hex_x_thrust_floor((wrench, floor): &(Wrench, f32)) -> ([f32; 6], f32) {
    let mut out = [LENT; 6];
    let scale = unsafe { footspandle_mix_thrust_floor_hex_x(wrench, *floor, &mut out) };
    (out, scale)
}

#[inline]
pub fn octo_coax_thrust_floor((wrench, floor): &(Wrench, f32)) -> ([f32; 8], f32) {
    let mut out = [LENT; 8];
    let scale = unsafe { footspandle_mix_thrust_floor_octo_coax(wrench, *floor, &mut out) };
    (out, scale)
}
