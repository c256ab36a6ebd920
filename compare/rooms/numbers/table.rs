//! The functions of one number, a row each: name, inputs, our side, the Rust's side.

use relay_mix_quad::passed_on as quad;

use comparing::answer::bits;
use comparing::inputs::{every_float, every_pattern};
use comparing::row::row;
use comparing::table::Table;

use super::inputs::every_float_and_floor;
use super::{ours, rust};

pub fn table() -> Table {
    let rows = vec![
        row("is_finite", every_float(), ours::is_finite, |x| {
            x.is_finite()
        }),
        row("is_nan", every_float(), ours::is_nan, |x| x.is_nan()),
        row("sanitise", every_float(), ours::sanitise, |&x| {
            quad::sanitise(x)
        }),
        row("limit", every_float(), ours::limit, rust::limit),
        row(
            "clamp, 0 to 1",
            every_float(),
            |&x| ours::clamp(x, 0.0, 1.0),
            |x| x.clamp(0.0, 1.0),
        ),
        row(
            "clamp, -8 to 8",
            every_float(),
            |&x| ours::clamp(x, -8.0, 8.0),
            |x| x.clamp(-8.0, 8.0),
        ),
        row("clamp01 of 001", every_float(), ours::clamp01, |&x| {
            relay_mix_multi::clamp01(x)
        }),
        row("float_of", every_pattern(), ours::float_of, |&x| {
            f32::from_bits(x)
        }),
        row("bits_of", every_float(), ours::bits_of, bits),
        row(
            "clamp_floor",
            every_float_and_floor(),
            ours::clamp_floor,
            rust::clamp_floor,
        ),
    ];
    rows.into()
}
