//! A model of thrust-floor over any rows, which the Rust has for the quad alone. It is written from
//! document 02's K6 and from what document 01 says of treating numbers, whose words are quoted, in
//! the plainest way. It calls nothing of our library, and takes of the Rust only the rows of the two
//! frames. It is ours all the same, and who wrote it had seen the Rust.

use comparing::inputs::LENT;

use super::inputs::{scaled, Floored, Scaled};
use crate::frames::frame::Wrench;
use crate::frames::rust::{hex_x_run, octo_coax_run};
use crate::rows::inputs::MOST;

/// "1.0e-6 as f32".
const SMALL: f32 = 1.0e-6;

/// Answers 0, or 10 where there are "over 64 outputs, or rows not four for each output": then the
/// outputs and the scale are left as they are.
pub fn mix_thrust_floor(
    rows: &[f32],
    &[thrust, roll, pitch, yaw]: &Wrench,
    floor: f32,
    out: &mut [f32],
    scale: &mut f32,
) -> u32 {
    if MOST < out.len() || rows.len() != 4 * out.len() {
        return 10;
    }
    let (t, floor) = (limited(thrust), limited(floor));
    let base = if t < floor { floor } else { t };
    let torque = [roll, pitch, yaw].map(treated);
    let deltas: Vec<f32> = rows.chunks(4).map(|row| delta(row, torque)).collect();
    let s = fit_scale(base, &deltas, floor);
    for (motor, d) in out.iter_mut().zip(deltas) {
        *motor = floor_clamp(base + s * d, floor);
    }
    *scale = s;
    0
}

/// By rows that are lent.
pub fn by_rows(f: &Floored) -> Scaled {
    scaled(mix_thrust_floor, f)
}

/// By the rows of a frame of M rotors: the motors, and the scale.
pub fn frame_thrust_floor<const M: usize>(
    run: &[f32],
    (wrench, floor): &(Wrench, f32),
) -> ([f32; M], f32) {
    let (mut motors, mut scale) = ([LENT; M], LENT);
    let number = mix_thrust_floor(run, wrench, *floor, &mut motors, &mut scale);
    assert_eq!(number, 0, "a frame is refused");
    (motors, scale)
}

pub fn hex_x_thrust_floor(asked: &(Wrench, f32)) -> ([f32; 6], f32) {
    frame_thrust_floor(&hex_x_run(), asked)
}

pub fn octo_coax_thrust_floor(asked: &(Wrench, f32)) -> ([f32; 8], f32) {
    frame_thrust_floor(&octo_coax_run(), asked)
}

// ---- the rules

/// "NaN and infinities become +0".
fn treated(x: f32) -> f32 {
    if x.is_finite() {
        x
    } else {
        0.0
    }
}

/// "treated, then under 0 becomes +0 and over 1 becomes 1. A -0 stays -0".
fn limited(x: f32) -> f32 {
    match treated(x) {
        x if x < 0.0 => 0.0,
        x if x > 1.0 => 1.0,
        x => x,
    }
}

/// "roll, pitch, yaw products summed, treated"; "the thrust column is not read".
fn delta(row: &[f32], [roll, pitch, yaw]: [f32; 3]) -> f32 {
    treated(row[1] * roll + row[2] * pitch + row[3] * yaw)
}

/// "start at 1. Motors in order"; "a limit replaces the value held only if it is strictly smaller";
/// "a negative or non-finite end value becomes +0".
fn fit_scale(base: f32, deltas: &[f32], floor: f32) -> f32 {
    let limits = deltas.iter().filter_map(|d| limit(base, *d, floor));
    let smaller = |held, limit| if limit < held { limit } else { held };
    let end = limits.fold(1.0, smaller);
    if end < 0.0 || !end.is_finite() {
        0.0
    } else {
        end
    }
}

/// "For d over small the limit is (1 - b) / d; for d under -small it is (b - floor) / (-d)".
fn limit(b: f32, d: f32, floor: f32) -> Option<f32> {
    if d > SMALL {
        Some((1.0 - b) / d)
    } else if d < -SMALL {
        Some((b - floor) / (-d))
    } else {
        None
    }
}

/// "non-finite, or x under the floor, gives the floor; over 1 gives 1".
fn floor_clamp(x: f32, floor: f32) -> f32 {
    if !x.is_finite() || x < floor {
        floor
    } else if x > 1.0 {
        1.0
    } else {
        x
    }
}
