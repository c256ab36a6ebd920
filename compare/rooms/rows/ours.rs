//! Ours, as the crate `exported` gives it to C.

use comparing::inputs::LENT;

use super::inputs::{After, Lent, MOST_LENT};
use crate::frames::frame::Wrench;

extern "C" {
    pub fn footspandle_mixer_mix(
        rows: *const f32,
        rows_length: usize,
        w: *const Wrench,
        out: *mut f32,
        out_length: usize,
    ) -> u32;
    fn footspandle_hex_x(rows: *mut [f32; 24]);
    fn footspandle_octo_coax(rows: *mut [f32; 32]);
    fn footspandle_mix_hex_x(w: *const Wrench, out: *mut [f32; 6]);
    fn footspandle_mix_octo_coax(w: *const Wrench, out: *mut [f32; 8]);
}

/// The number that a call answers, and the room for outputs afterwards, of which a part is lent.
#[inline]
pub fn mix(l: &Lent) -> After {
    let mut out = [LENT; MOST_LENT];
    let (rows, part) = (l.rows(), &mut out[..l.outputs]);
    let number = unsafe {
        footspandle_mixer_mix(
            rows.as_ptr(),
            rows.len(),
            &l.wrench,
            part.as_mut_ptr(),
            part.len(),
        )
    };
    (number, out)
}

#[inline]
pub fn hex_x_run() -> [f32; 24] {
    let mut run = [LENT; 24];
    unsafe { footspandle_hex_x(&mut run) };
    run
}

#[inline]
pub fn octo_coax_run() -> [f32; 32] {
    let mut run = [LENT; 32];
    unsafe { footspandle_octo_coax(&mut run) };
    run
}

#[inline]
pub fn hex_x_mix(wrench: &Wrench) -> [f32; 6] {
    let mut out = [LENT; 6];
    unsafe { footspandle_mix_hex_x(wrench, &mut out) };
    out
}

#[inline]
pub fn octo_coax_mix(wrench: &Wrench) -> [f32; 8] {
    let mut out = [LENT; 8];
    unsafe { footspandle_mix_octo_coax(wrench, &mut out) };
    out
}
