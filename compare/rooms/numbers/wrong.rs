//! Functions of one number that are wrong on purpose, in the place of ours. Each has to be noticed,
//! which shows that the comparison can fail.

use comparing::inputs::every_float;
use comparing::row::row;
use comparing::table::Wrong;
use relay_mix_multi::clamp01;

use super::inputs::every_float_and_floor;
use super::rust;

pub fn wrong() -> Wrong {
    let rows = vec![
        row(
            "clamp_floor, +infinity to 1",
            every_float_and_floor(),
            clamp_floor,
            rust::clamp_floor,
        ),
        row("limit, -0 to +0", every_float(), limit, rust::limit),
        row(
            "clamp01 of 001, +infinity to 0",
            every_float(),
            infinity_to_zero,
            |&x| clamp01(x),
        ),
    ];
    rows.into()
}

/// Wrong at +infinity, which is to give the floor.
fn clamp_floor(&(x, lo): &(f32, f32)) -> f32 {
    if x == f32::INFINITY {
        1.0
    } else if !x.is_finite() || x < lo {
        lo
    } else {
        x.min(1.0)
    }
}

/// Wrong at -0, which is to stay.
fn limit(&x: &f32) -> f32 {
    if x.is_finite() && 0.0 < x {
        x.min(1.0)
    } else {
        0.0
    }
}

/// Wrong at +infinity, which is to give 1.
fn infinity_to_zero(&x: &f32) -> f32 {
    if x == f32::INFINITY {
        0.0
    } else {
        clamp01(x)
    }
}
