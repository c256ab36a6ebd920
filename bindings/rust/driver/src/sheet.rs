//! The module `sheet` of our relay-mix-quad, from a fresh state: ours against the model of
//! compare/rooms, whose mixes are the Rust's. The Rust has no sheet.

use ours_quad::sheet::{self, Refused};
use ours_quad::QuadMixer;

use comparing::inputs::Inputs;
use comparing::row::Row;
use rooms::quad::call::{self, sums, State, FRESH};
use rooms::sheet::case::Case;
use rooms::sheet::chosen::chosen_sheets;
use rooms::sheet::groups::GROUPS;
use rooms::sheet::model::{Ran, Told};
use rooms::sheet::row::{sheet_row, Given};
use rooms::sheet::side::{Place, Side};

use crate::quad::ours;

/// Ours, and how it is to be wrong.
#[derive(Clone, Copy)]
enum Ours {
    Right,
    /// An accepted sheet's output has a bit turned, and a refusal comes with the next entry.
    Turned,
    /// The state keeps the torque that it began with.
    TorqueKept,
}

/// The number and the entry, 0 and 0 for an accepted sheet.
fn told(answer: Result<(), Refused>) -> Told {
    match answer {
        Ok(()) => (0, 0),
        Err(Refused { number, entry }) => (number, entry),
    }
}

impl Side for Ours {
    fn check(self, bytes: &[u8]) -> Told {
        told(sheet::check(bytes))
    }

    fn run(self, bytes: &[u8], _: &State, out: &mut [u8]) -> Ran {
        let mut mixer = QuadMixer::new();
        let (number, mut entry) = told(sheet::run(bytes, &mut mixer, out));
        let mut state = ours::state(&mixer);
        match (self, out.first_mut()) {
            (Ours::Right, _) => {}
            (Ours::Turned, Some(byte)) if number == 0 => *byte ^= 1,
            (Ours::Turned, _) => entry += 1,
            (Ours::TorqueKept, _) => {
                let [a, b, c, d, scale, ..] = state;
                state = call::state([a, b, c, d], scale, sums(&FRESH));
            }
        }
        Ran {
            number,
            entry,
            state,
        }
    }

    /// What is handed back is a part of the sheet itself, so that its address tells the place.
    fn body(self, bytes: &[u8], i: usize) -> Place {
        let part = sheet::body(bytes, i);
        let place = (part.as_ptr() as usize).wrapping_sub(bytes.as_ptr() as usize);
        (place, part.len())
    }

    /// Nothing here prints: no case asks for it.
    fn text(self, _: &[u8]) -> Vec<u8> {
        Vec::new()
    }
}

/// How much of each group is run: the first of so many.
const PART: u64 = 16;

/// The first cases, from a fresh state, and none with a text.
fn from_fresh(inputs: Inputs<impl Fn(u64) -> Case>, cases: u64) -> Inputs<impl Fn(u64) -> Case> {
    let make = inputs.make;
    Inputs {
        kinds: format!("from a fresh state; {}", inputs.kinds),
        cases,
        make: move |n| Case {
            state: FRESH,
            with_text: false,
            ..make(n)
        },
    }
}

pub fn rows(wrong: bool) -> Vec<Row> {
    let ours = if wrong { Ours::Turned } else { Ours::Right };
    let given = Given::default();
    let chosen = |name, ours| {
        let inputs = chosen_sheets();
        let all = inputs.cases;
        sheet_row(name, from_fresh(inputs, all), ours, &given)
    };
    let mut rows = vec![chosen("sheets, chosen", ours)];
    rows.extend(GROUPS.iter().map(|group| {
        let inputs = group.inputs();
        let some = inputs.cases / PART;
        sheet_row(group.name, from_fresh(inputs, some), ours, &given)
    }));
    if wrong {
        rows.push(chosen("torque kept by a sheet's run", Ours::TorqueKept));
    }
    rows
}
