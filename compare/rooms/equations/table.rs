//! The determinant and the solution, a row each.

use comparing::row::row;
use comparing::table::Table;

use super::inputs::{rotor_out_systems, systems};
use super::{ours, rust};

pub fn table() -> Table {
    let rows = vec![
        row("det3", systems(), ours::det3, rust::det3),
        row("solve3", systems(), ours::solve3, rust::solve3),
        row(
            "solve3, rotor-out",
            rotor_out_systems(),
            ours::solve3,
            rust::solve3,
        ),
    ];
    rows.into()
}
