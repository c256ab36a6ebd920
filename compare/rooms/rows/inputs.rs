//! Rows lent as one run, and outputs lent, in all numbers, with wrenches.

use comparing::hex::Hex;
use comparing::inputs::{seeded, Inputs};
use comparing::random::Random;

use crate::frames::frame::Wrench;
use crate::frames::inputs::{fill_any, fill_rotors, wrench_and_floor};
use crate::quad::inputs::COMMAND_KINDS;

/// The most outputs of a mix, and the most that are lent here, where more are to be refused.
pub const MOST: usize = 64;
pub const MOST_LENT: usize = 80;

/// As many numbers as so many rows have, and a few more.
const ROOM: usize = 4 * MOST_LENT + 8;

/// Rows as one run, how many of its numbers are lent and how many outputs are, and a wrench.
pub struct Lent {
    run: [f32; ROOM],
    numbers: usize,
    pub outputs: usize,
    pub wrench: Wrench,
}

impl Lent {
    /// So many numbers and outputs, and a wrench. The numbers are zeros yet.
    pub fn new(numbers: usize, outputs: usize, wrench: Wrench) -> Lent {
        Lent {
            run: [0.0; ROOM],
            numbers,
            outputs,
            wrench,
        }
    }

    pub fn rows(&self) -> &[f32] {
        &self.run[..self.numbers]
    }

    pub fn rows_mut(&mut self) -> &mut [f32] {
        &mut self.run[..self.numbers]
    }
}

impl Hex for Lent {
    fn hex(&self) -> String {
        let rows = self.rows().hex();
        format!("{rows} {} outputs {}", self.wrench.hex(), self.outputs)
    }
}

/// A number for what a call answers, 0 or 10, and all of the room for outputs afterwards.
pub type After = (u32, [f32; MOST_LENT]);

/// Rows of rotors or of any kind, and a wrench of any kind.
pub fn lent_of(random: &mut Random, numbers: usize, outputs: usize) -> Lent {
    floored_of(random, numbers, outputs).0
}

/// The same, and the floor of the wrench's command.
pub fn floored_of(random: &mut Random, numbers: usize, outputs: usize) -> (Lent, f32) {
    let (wrench, floor) = wrench_and_floor(random);
    let mut lent = Lent::new(numbers, outputs, wrench);
    match random.below(2) {
        0 => fill_any(random, lent.rows_mut()),
        _ => fill_rotors(random, lent.rows_mut()),
    }
    (lent, floor)
}

/// What the kinds of rows and wrenches are.
pub fn lent_kinds() -> String {
    format!("rows any mixture, special values, any bits, -1..1, rotors; wrenches {COMMAND_KINDS}")
}

/// Four numbers for each output, at every length that is accepted.
pub fn lent_rows() -> Inputs<impl Fn(u64) -> Lent> {
    const SEED: u64 = 17;
    let kinds = format!("0 to 64 outputs; {}", lent_kinds());
    seeded(&kinds, SEED, 1 << 25, |n| {
        let outputs = n as usize % (MOST + 1);
        lent_of(&mut Random::new(SEED, n), 4 * outputs, outputs)
    })
}

/// How a case is made, from the numbers of rows and the outputs that are lent.
pub type Made<I> = fn(&mut Random, usize, usize) -> I;

/// Lengths that are refused, and some that are not: up to 80 outputs, with four numbers for each,
/// up to 8 more or fewer, or any count of numbers.
pub fn at_any_length<I>(seed: u64, made: Made<I>) -> Inputs<impl Fn(u64) -> I> {
    let kinds = "0 to 80 outputs; four numbers for each, up to 8 more or fewer, or any number";
    seeded(kinds, seed, 1 << 24, move |n| {
        let mut random = Random::new(seed, n);
        let outputs = n as usize % (MOST_LENT + 1);
        let off = random.below(9) as usize;
        let numbers = match random.below(4) {
            0 => 4 * outputs,
            1 => 4 * outputs + off,
            2 => (4 * outputs).saturating_sub(off),
            _ => random.below(ROOM as u64 + 1) as usize,
        };
        made(&mut random, numbers, outputs)
    })
}

pub fn lent_at_any_length() -> Inputs<impl Fn(u64) -> Lent> {
    at_any_length(18, lent_of)
}
