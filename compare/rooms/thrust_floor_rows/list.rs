//! The records of thrust-floor over rows, which are written as one run, four numbers a row.
//!
//!   33       by any number of rows: thrust, roll, pitch, yaw, floor, and the rows; the answers are
//!            as many motors, and the scale
//!   34, 35   by the rows of hex_x and octo_coax: thrust, roll, pitch, yaw, floor; the answers are
//!            six motors, or eight, and the scale
//!
//! The Rust has it for the quad alone. The answers of the records with the quad's rows are the
//! Rust's, and all others are those of the model, model.rs.

use comparing::inputs::{chosen, Inputs};
use comparing::list::{record, List, Record};
use comparing::random::Random;
use comparing::special::TOP;

use super::inputs::{
    asked, by_quad_rows, floored_at_the_limit, floored_wrenches, special_wrenches, Floored,
};
use super::model::{self, hex_x_thrust_floor, octo_coax_thrust_floor};
use crate::frames::frame::Wrench;
use crate::quad::call::{Call, Mix, State};
use crate::quad::inputs::calls;
use crate::quad::rust::called;
use crate::quad::special::special_calls;
use crate::rows::inputs::{floored_of, lent_kinds};
use crate::rows::list::lent_for;

pub fn add(list: &mut List) {
    let kinds = format!("{}; a third with limits near 1", lent_kinds());
    for outputs in OUTPUTS {
        let name = format!("thrust-floor by rows, {outputs} outputs");
        let inputs = lent_for(&kinds, SEED, outputs, floored);
        list.add_all(&name, 33, inputs, by_rows);
    }
    let name = "thrust-floor by the quad's rows";
    list.add(name, 33, 32, special_calls(Mix::ThrustFloor), by_the_quad);
    list.add(name, 33, 32, calls(Mix::ThrustFloor), by_the_quad);
    add_wrenches(list, "thrust-floor of hex_x", 34, |asked| {
        let (motors, scale) = hex_x_thrust_floor(asked);
        scaled_record(asked, &[], &motors, scale)
    });
    add_wrenches(list, "thrust-floor of octo_coax", 35, |asked| {
        let (motors, scale) = octo_coax_thrust_floor(asked);
        scaled_record(asked, &[], &motors, scale)
    });
}

/// What is asked, and the rows if they are told; the motors, and then the scale.
fn scaled_record(
    (wrench, floor): &(Wrench, f32),
    rows: &[f32],
    motors: &[f32],
    scale: f32,
) -> Record {
    let inputs = [wrench, &[*floor][..], rows].concat();
    record(&inputs, &[motors, &[scale]].concat())
}

// ---- rows that are told

/// The numbers of outputs that it is replayed at, and the seed of the inputs.
const OUTPUTS: [usize; 7] = [0, 1, 4, 6, 8, 63, 64];
const SEED: u64 = 33;

/// A third of the cases with limits near 1.
fn floored(random: &mut Random, numbers: usize, outputs: usize) -> Floored {
    match random.below(3) {
        0 => floored_at_the_limit(random, numbers, outputs),
        _ => floored_of(random, numbers, outputs),
    }
}

fn by_rows(f: &Floored) -> Record {
    let ((_, out), scale) = model::by_rows(f);
    let (lent, floor) = f;
    let motors = &out[..lent.outputs];
    scaled_record(&(lent.wrench, *floor), lent.rows(), motors, scale)
}

/// By the quad's rows, with the answers of the Rust's quad.
fn by_the_quad(input: &(State, Call)) -> Record {
    let (motors, [_, _, _, _, scale, ..]) = called(input);
    let (_, call) = input;
    let (lent, _) = by_quad_rows(call);
    scaled_record(&asked(call), lent.rows(), &motors, scale)
}

// ---- one frame, whose rows are not told

/// Hard rolls, document 01's bench figures 5 to 7, zeros, what is treated, and sums that overflow.
const CHOSEN: [(Wrench, f32); 16] = [
    ([0.75, 1.0, 0.0, 0.0], 0.125),
    ([0.75, -1.0, 0.0, 0.0], 0.125),
    ([0.5, 0.5, 0.0, 0.0], 0.25),
    ([0.5, 0.125, 0.125, 0.0], 0.25),
    ([-0.0, 0.5, 0.0, 0.0], 0.0),
    ([0.0, 0.5, 0.0, 0.0], -0.0),
    ([0.0, 0.0, 0.0, 0.0], 0.0),
    ([-0.0, -0.0, -0.0, -0.0], -0.0),
    ([-0.0, -0.0, -0.0, -0.0], 0.0),
    ([f32::INFINITY, 0.0, 0.0, 0.0], 0.25),
    ([0.5, f32::INFINITY, 0.25, 0.0], 0.25),
    ([0.5, 0.25, f32::NEG_INFINITY, 0.25], 0.25),
    ([f32::NAN, 0.25, f32::NAN, 0.125], f32::NAN),
    ([0.5, 0.25, 0.0, f32::NAN], f32::INFINITY),
    ([0.5, TOP, TOP, TOP], 0.125),
    ([0.5, f32::MAX, f32::MIN, f32::MAX], 0.125),
];

fn chosen_wrenches() -> Inputs<impl Fn(u64) -> (Wrench, f32)> {
    let kinds = "hard rolls, bench figures, zeros, what is treated, overflows";
    chosen(kinds, &CHOSEN)
}

fn add_wrenches(list: &mut List, name: &str, kind: u32, mix: fn(&(Wrench, f32)) -> Record) {
    list.add_all(name, kind, chosen_wrenches(), mix);
    list.add(name, kind, 16, special_wrenches(), mix);
    list.add(name, kind, 32, floored_wrenches(), mix);
}
