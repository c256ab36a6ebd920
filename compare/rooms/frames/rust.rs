//! The Rust's side, and the rows of the frames that it knows.

use std::array::from_fn;

use relay_mix_multi::passed_on as multi;
use relay_mix_multi::{hex_x, octo_coax};
use relay_mix_quad::{passed_on as quad, MixerN};

use super::frame::{Frame, Wrench};

// ---- rows

/// Rows as one run, row by row.
fn run_of<const M: usize, const N: usize>(rows: [[f32; 4]; M]) -> [f32; N] {
    from_fn(|i| rows[i / 4][i % 4])
}

/// The first rows of a run.
pub fn rows_of<const M: usize>(run: &[f32]) -> [[f32; 4]; M] {
    from_fn(|i| from_fn(|k| run[4 * i + k]))
}

pub fn hex_x_run() -> [f32; 24] {
    run_of(multi::rows(&hex_x()))
}

pub fn octo_coax_run() -> [f32; 32] {
    run_of(multi::rows(&octo_coax()))
}

// ---- MixerN

pub fn frame(f: &Frame) -> MixerN {
    MixerN::new(rows_of(&f.run), f.count)
}

/// A frame's rows, and what its reader says of the count.
fn read(frame: &MixerN) -> Frame {
    Frame {
        run: run_of(quad::frame_rows(frame)),
        count: frame.n(),
    }
}

/// The frame that `new` gives.
pub fn new(f: &Frame) -> Frame {
    read(&frame(f))
}

pub fn quad_x() -> Frame {
    read(&MixerN::quad_x())
}

pub fn frame_mix(frame: &MixerN, &[thrust, roll, pitch, yaw]: &Wrench) -> [f32; 8] {
    frame.mix([roll, pitch, yaw], thrust)
}

pub fn mix((f, w): &(Frame, Wrench)) -> [f32; 8] {
    frame_mix(&frame(f), w)
}

pub fn quad_x_mix(w: &Wrench) -> [f32; 8] {
    frame_mix(&MixerN::quad_x(), w)
}

pub fn achieved_wrench((f, motors): &(Frame, [f32; 8])) -> Wrench {
    frame(f).achieved_wrench(motors)
}
