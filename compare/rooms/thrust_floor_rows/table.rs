//! Thrust-floor over rows, a row each. That the model is right, where there is a Rust to say so,
//! two rows show, which compare it with the Rust's quad.

use comparing::inputs::{Inputs, LENT};
use comparing::row::{row, Row};
use comparing::table::Table;

use super::inputs::{
    by_quad_rows, floored_at_any_length, floored_rows, floored_rows_at_the_limit, floored_wrenches,
    special_wrenches, Floored, Scaled,
};
use super::{model, ours};
use crate::quad::call::{Call, Mix, State};
use crate::quad::inputs::calls;
use crate::quad::rust::called;
use crate::quad::special::special_calls;
use crate::rows::inputs::MOST_LENT;

pub fn table() -> Table {
    let rows = vec![
        by_rows("against a model of document 02", floored_rows()),
        by_rows(
            "limits near 1, against the model",
            floored_rows_at_the_limit(),
        ),
        by_rows("refusals against the model", floored_at_any_length()),
        row(
            "thrust-floor by the quad's rows, special values, against the Rust's quad",
            special_calls(Mix::ThrustFloor),
            our_quad,
            rust_quad,
        ),
        row(
            "thrust-floor by the quad's rows, against the Rust's quad",
            calls(Mix::ThrustFloor),
            our_quad,
            rust_quad,
        ),
        row(
            "the model by the quad's rows, special values, against the Rust's quad",
            special_calls(Mix::ThrustFloor),
            model_quad,
            rust_quad,
        ),
        row(
            "the model by the quad's rows, against the Rust's quad",
            calls(Mix::ThrustFloor),
            model_quad,
            rust_quad,
        ),
        row(
            "thrust-floor of hex_x, special values, against the model",
            special_wrenches(),
            ours::hex_x_thrust_floor,
            model::hex_x_thrust_floor,
        ),
        row(
            "thrust-floor of hex_x, against the model",
            floored_wrenches(),
            ours::hex_x_thrust_floor,
            model::hex_x_thrust_floor,
        ),
        row(
            "thrust-floor of octo_coax, special values, against the model",
            special_wrenches(),
            ours::octo_coax_thrust_floor,
            model::octo_coax_thrust_floor,
        ),
        row(
            "thrust-floor of octo_coax, against the model",
            floored_wrenches(),
            ours::octo_coax_thrust_floor,
            model::octo_coax_thrust_floor,
        ),
    ];
    rows.into()
}

// ---- rows that are lent

fn by_rows(named: &str, inputs: Inputs<impl Fn(u64) -> Floored + Sync + 'static>) -> Row {
    let name = format!("thrust-floor by rows, {named}");
    row(name, inputs, ours::by_rows, model::by_rows)
}

// ---- the quad's rows

fn our_quad((_, call): &(State, Call)) -> Scaled {
    ours::by_rows(&by_quad_rows(call))
}

fn model_quad((_, call): &(State, Call)) -> Scaled {
    model::by_rows(&by_quad_rows(call))
}

/// The motors that the Rust's quad returns, at the start of the room, and the scale that it
/// records.
fn rust_quad(asked: &(State, Call)) -> Scaled {
    let (motors, [_, _, _, _, scale, ..]) = called(asked);
    let mut out = [LENT; MOST_LENT];
    out[..4].copy_from_slice(&motors);
    ((0, out), scale)
}
