//! 001's mixer, a row for each function.

use comparing::inputs::once;
use comparing::row::row;
use comparing::special::special_fours;
use comparing::table::Table;

use super::inputs::{lent_at_any_length, lent_rows};
use super::{model, ours, rust};
use crate::frames::inputs::wrenches;
use crate::frames::rust::{hex_x_run, octo_coax_run};

pub fn table() -> Table {
    let rows = vec![
        row("Mixer::mix of 001", lent_rows(), ours::mix, rust::mix),
        row(
            "Mixer::mix of 001, refusals against a model of document 01",
            lent_at_any_length(),
            ours::mix,
            model::mix_or_refuse,
        ),
        row(
            "hex_x, rows",
            once(),
            |_| ours::hex_x_run(),
            |_| hex_x_run(),
        ),
        row(
            "hex_x, mix, special values",
            special_fours("wrenches"),
            ours::hex_x_mix,
            rust::hex_x_mix,
        ),
        row("hex_x, mix", wrenches(), ours::hex_x_mix, rust::hex_x_mix),
        row(
            "octo_coax, rows",
            once(),
            |_| ours::octo_coax_run(),
            |_| octo_coax_run(),
        ),
        row(
            "octo_coax, mix, special values",
            special_fours("wrenches"),
            ours::octo_coax_mix,
            rust::octo_coax_mix,
        ),
        row(
            "octo_coax, mix",
            wrenches(),
            ours::octo_coax_mix,
            rust::octo_coax_mix,
        ),
    ];
    rows.into()
}
