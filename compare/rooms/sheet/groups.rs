//! The groups of random sheets.

use comparing::inputs::{seeded, Inputs};
use comparing::random::Random;

use super::case::Case;
use super::damaged::{at_random, changed, of_any_length, with_one_damage, with_two_damages};
use super::good::good;
use crate::quad::inputs::COMMAND_KINDS;

/// Random sheets of one group: how many there are, and how one is made.
pub struct Group {
    pub name: &'static str,
    kinds: &'static str,
    seed: u64,
    cases: u64,
    make: fn(&mut Random) -> Case,
}

pub const GROUPS: [Group; 6] = [
    Group {
        name: "sheets, good",
        kinds: "0 to 64 entries, small counts more often; room exact, one byte off, 1280, 0, any",
        seed: 20,
        cases: 1 << 20,
        make: good,
    },
    Group {
        name: "sheets, one damage",
        kinds: "each of the numbers 1 to 9 aimed at",
        seed: 21,
        cases: 1 << 20,
        make: with_one_damage,
    },
    Group {
        name: "sheets, two damages",
        kinds: "any two of the numbers 2 to 9 aimed at, 5 to 7 more often",
        seed: 22,
        cases: 1 << 20,
        make: with_two_damages,
    },
    Group {
        name: "sheets, lengths",
        kinds: "cut or made longer, up to 65536 bytes more; length field kept, right, one off",
        seed: 23,
        cases: 1 << 19,
        make: of_any_length,
    },
    Group {
        name: "sheets, changed bytes",
        kinds: "1 to 3 bytes of a good sheet, half of them before the bodies",
        seed: 24,
        cases: 1 << 19,
        make: changed,
    },
    Group {
        name: "sheets, random bytes",
        kinds: "all bytes; all after version, count and length; all bodies",
        seed: 25,
        cases: 1 << 19,
        make: at_random,
    },
];

impl Group {
    /// Case n: of every eighth the printed text is compared.
    pub fn case(&self, n: u64) -> Case {
        let with_text = n % 8 == 0;
        let case = (self.make)(&mut Random::new(self.seed, n));
        Case { with_text, ..case }
    }

    pub fn inputs(&'static self) -> Inputs<impl Fn(u64) -> Case> {
        seeded(self.kinds, self.seed, self.cases, |n| self.case(n))
    }
}

/// What the numbers of every group's sheets are.
pub fn sheet_kinds() -> String {
    format!("commands of all sheets: {COMMAND_KINDS}; states: fresh, any bits, mixture")
}
