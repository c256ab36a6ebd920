//! The fit scale, of four motors and of lengths that differ.

use comparing::row::row;
use comparing::table::Table;

use super::inputs::{fits, fits_of_any_length};
use super::{ours, rust};

pub fn table() -> Table {
    let rows = vec![
        row("scale", fits(), ours::scale, rust::scale),
        row(
            "scale, lengths",
            fits_of_any_length(),
            ours::scale,
            rust::scale,
        ),
    ];
    rows.into()
}
