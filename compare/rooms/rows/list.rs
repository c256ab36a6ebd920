//! The records of 001's mixer.
//!
//!   30       Mixer::mix of 001: thrust, roll, pitch, yaw, and any number of rows, as one run, four
//!            numbers a row; the answers are as many motors
//!   31, 32   the mixes of hex_x and octo_coax: thrust, roll, pitch, yaw; the answers are six
//!            motors, and eight

use comparing::inputs::{seeded, Inputs};
use comparing::list::{record, List, Record};
use comparing::random::Random;

use super::inputs::{lent_kinds, lent_of, Lent, Made};
use super::rust;
use crate::frames::list::add_wrenches;

pub fn add(list: &mut List) {
    for outputs in OUTPUTS {
        let name = format!("Mixer::mix of 001, {outputs} outputs");
        let inputs = lent_for(&lent_kinds(), SEED, outputs, lent_of);
        list.add_all(&name, 30, inputs, mix);
    }
    add_wrenches(list, "hex_x, mix", 31, |w| record(w, &rust::hex_x_mix(w)));
    add_wrenches(list, "octo_coax, mix", 32, |w| {
        record(w, &rust::octo_coax_mix(w))
    });
}

/// The numbers of outputs that the mix is replayed at, and the seed of its inputs.
const OUTPUTS: [usize; 10] = [0, 1, 2, 3, 4, 6, 8, 16, 63, 64];
const SEED: u64 = 19;

fn mix(l: &Lent) -> Record {
    let (_, out) = rust::mix(l);
    record(&[&l.wrench, l.rows()].concat(), &out[..l.outputs])
}

/// Other rows and wrenches at each number of outputs, four numbers for each.
pub fn lent_for<I>(
    kinds: &str,
    seed: u64,
    outputs: usize,
    made: Made<I>,
) -> Inputs<impl Fn(u64) -> I> {
    const CASES: u64 = 12;
    seeded(kinds, seed, CASES, move |n| {
        let mut random = Random::new(seed, CASES * outputs as u64 + n);
        made(&mut random, 4 * outputs, outputs)
    })
}
