//! The command sheet. It is ours: the Rust crate relay-mix-quad has none.
//!
//! A sheet is bytes, of which nothing is trusted; its layout is in include/footspandle.h. An accepted
//! sheet is run as calls of [`QuadMixer`]'s mixes, one after another.

use core::fmt;

use crate::{exported, QuadMixer};

/// How many entries a sheet has at most.
pub const MAX_ENTRIES: usize = 64;

/// How many bytes the answer of an entry takes in the output of a run: four motors and the recorded
/// scale after the call, each as the bits of its float, little-endian.
pub const ANSWER_BYTES: usize = 20;

/// Why a sheet is refused: the first of these that applies.
///
/// - 1: the sheet has under 4 bytes
/// - 2: the version is not 1
/// - 3: there are over 64 entries
/// - 4: the length field is not the length of the sheet, or the contents do not fit in that
/// - 5: an entry's kind is over 4
/// - 6: an entry's rotor byte is not 0, and its kind is not 4
/// - 7: an entry's body does not begin at the end of the one before it (the first: of the contents)
/// - 8: the sheet does not end at the end of the last body (with no entries: of the contents)
/// - 9: the output has under 20 bytes for each entry
///
/// 5, 6 and 7 come with the entry that they are about, and are tried entry by entry.
#[derive(Clone, Copy, Debug, PartialEq, Eq)]
pub struct Refused {
    /// The number, as in the list.
    pub number: u32,
    /// The entry that the number comes with, counted from 0; with a number that comes with none, 0.
    pub entry: u32,
}

/// As the program `mixrun` prints it.
impl fmt::Display for Refused {
    fn fmt(&self, f: &mut fmt::Formatter<'_>) -> fmt::Result {
        write!(f, "refused {} at {}", self.number, self.entry)
    }
}

fn told((number, entry): (u32, u32)) -> Result<(), Refused> {
    match number {
        0 => Ok(()),
        _ => Err(Refused { number, entry }),
    }
}

/// Whether a sheet is accepted. The number is never 9, which is about an output.
pub fn check(sheet: &[u8]) -> Result<(), Refused> {
    told(exported::sheet_check(sheet))
}

/// The body of entry i, as that part of the sheet, 16 or 20 bytes; an empty part for a refused sheet
/// and for an entry that it does not have.
pub fn body(sheet: &[u8], i: usize) -> &[u8] {
    let (at, length) = exported::sheet_body(sheet, i);
    // The part lies within the sheet, so that this never panics.
    &sheet[at..at + length]
}

/// Runs a sheet from a state. The answer of entry i stands at `out[20 * i..20 * i + 20]`; the bytes
/// past the last answer stay. The state's torque is then that of the last call's motors, and stands in
/// no answer. A refused sheet, and an output of under 20 bytes for each entry (number 9), leaves state
/// and output as they were.
pub fn run(sheet: &[u8], state: &mut QuadMixer, out: &mut [u8]) -> Result<(), Refused> {
    told(exported::sheet_run(sheet, state, out))
}
