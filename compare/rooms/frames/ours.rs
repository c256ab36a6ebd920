//! Ours, as the crate `exported` gives it to C. A frame that `new` or `quad_x` gives is its rows
//! and its count.

use comparing::inputs::LENT;

use super::frame::{Frame, Wrench};

extern "C" {
    fn footspandle_mixer_n_new(rows: *const [f32; 32], n: usize, mix: *mut [f32; 32]) -> usize;
    fn footspandle_mixer_n_quad_x(mix: *mut [f32; 32]) -> usize;
    pub fn footspandle_mixer_n_mix(
        mix: *const [f32; 32],
        n: usize,
        torque_body: *const [f32; 3],
        thrust: f32,
        motors: *mut [f32; 8],
    );
    fn footspandle_mixer_n_achieved_wrench(
        mix: *const [f32; 32],
        n: usize,
        motors: *const [f32; 8],
        wrench: *mut Wrench,
    );
}

/// The frame that `new` gives.
#[inline]
pub fn new(f: &Frame) -> Frame {
    let mut run = [LENT; 32];
    let count = unsafe { footspandle_mixer_n_new(&f.run, f.count, &mut run) };
    Frame { run, count }
}

#[inline]
pub fn quad_x() -> Frame {
    let mut run = [LENT; 32];
    let count = unsafe { footspandle_mixer_n_quad_x(&mut run) };
    Frame { run, count }
}

#[inline]
pub fn mix((f, [thrust, torque @ ..]): &(Frame, Wrench)) -> [f32; 8] {
    let mut motors = [LENT; 8];
    unsafe { footspandle_mixer_n_mix(&f.run, f.count, torque, *thrust, &mut motors) };
    motors
}

/// Ours of `quad_x` is mixed with.
#[inline]
pub fn quad_x_mix(w: &Wrench) -> [f32; 8] {
    mix(&(quad_x(), *w))
}

#[inline]
pub fn achieved_wrench((f, motors): &(Frame, [f32; 8])) -> Wrench {
    let mut wrench = [LENT; 4];
    unsafe { footspandle_mixer_n_achieved_wrench(&f.run, f.count, motors, &mut wrench) };
    wrench
}
