//! The functions of `MixerN`, a row each.

use comparing::inputs::once;
use comparing::row::row;
use comparing::special::special_fours;
use comparing::table::Table;

use super::inputs::{frame_calls, frame_motors, frames, wrenches, ANY_ROWS, ROTOR_ROWS};
use super::{ours, rust};

pub fn table() -> Table {
    let mut rows = vec![
        row("MixerN::new", frames(), ours::new, rust::new),
        row(
            "MixerN::quad_x, rows and count",
            once(),
            |_| ours::quad_x(),
            |_| rust::quad_x(),
        ),
        row(
            "MixerN::quad_x, mix, special values",
            special_fours("wrenches"),
            ours::quad_x_mix,
            rust::quad_x_mix,
        ),
        row(
            "MixerN::quad_x, mix",
            wrenches(),
            ours::quad_x_mix,
            rust::quad_x_mix,
        ),
    ];
    for (named, made) in [("any rows", ANY_ROWS), ("rotors", ROTOR_ROWS)] {
        rows.push(row(
            format!("MixerN::mix, {named}"),
            frame_calls(made),
            ours::mix,
            rust::mix,
        ));
    }
    for (named, made) in [("any rows", ANY_ROWS), ("rotors", ROTOR_ROWS)] {
        rows.push(row(
            format!("MixerN::achieved_wrench, {named}"),
            frame_motors(made),
            ours::achieved_wrench,
            rust::achieved_wrench,
        ));
    }
    rows.into()
}
