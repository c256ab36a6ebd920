//! Sheets of 64 entries timed, run and only judged. The Rust has no sheet, so what they are timed
//! against is the model, over the Rust's mixes, behind calls of the same kind; they are held to
//! nothing.

use std::hint::black_box;
use std::rc::Rc;

use comparing::random::Random;
use comparing::timed_commands::{Asked, Commands, PART, SEED};
use comparing::timing::{fold_bits, folded, pair, Side, Timing, MODEL};

use super::good::sheet_of;
use super::model::{self, ANSWER};
use super::ours::{footspandle_sheet_check, footspandle_sheet_run_quad32};
use crate::quad::call::{Call, State, FRESH, MIXES};

/// How many entries a sheet has.
const ENTRIES: usize = 64;

#[inline]
pub fn timings(commands: &Commands) -> Vec<Timing> {
    let sheets = Rc::new(sheets(commands));
    let timing = |name, sides| Timing {
        name,
        against: MODEL,
        pair: pair(&sheets, PART / ENTRIES, sides),
    };
    vec![
        timing(
            "sheet64",
            [run(footspandle_sheet_run_quad32), run(model_run)],
        ),
        timing(
            "check64",
            [check(footspandle_sheet_check), check(model_check)],
        ),
    ]
}

// ---- the sheets

/// The commands as sheets, each entry of any kind.
fn sheets(commands: &[Asked]) -> Vec<Vec<u8>> {
    let parts = commands.chunks(ENTRIES).enumerate();
    let sheets = parts.map(|(n, part)| {
        let mut random = Random::new(SEED, n as u64);
        let calls: Vec<Call> = part.iter().map(|c| call(&mut random, c)).collect();
        sheet_of(&calls)
    });
    sheets.collect()
}

fn call(random: &mut Random, c: &Asked) -> Call {
    Call {
        mix: random.one_of(&MIXES),
        torque: *c.torque(),
        thrust: c.thrust(),
        floor: c.floor,
        rotor: c.rotor,
    }
}

// ---- how a sheet is handed on

type Check = unsafe extern "C" fn(*const u8, usize, *mut u32) -> u32;

fn check(check: Check) -> Side<Vec<u8>> {
    let check = black_box(check);
    Rc::new(move |part| {
        part.iter().fold(0, |fold, sheet| {
            let mut entry = 1;
            let number = unsafe { check(sheet.as_ptr(), sheet.len(), &mut entry) };
            fold_bits(fold_bits(fold, number), entry)
        })
    })
}

type Run = unsafe extern "C" fn(*const u8, usize, *mut State, *mut u8, usize, *mut u32) -> u32;

/// The state is folded after every sheet, and the output after the last: that is every output where
/// the answers are compared, sheet by sheet.
fn run(run: Run) -> Side<Vec<u8>> {
    let run = black_box(run);
    Rc::new(move |part| {
        let (mut state, mut out, mut entry) = (FRESH, [0; ANSWER * ENTRIES], 0);
        let mut fold = 0;
        for sheet in part {
            let (to, room) = (out.as_mut_ptr(), out.len());
            let from = (sheet.as_ptr(), sheet.len());
            let number = unsafe { run(from.0, from.1, &mut state, to, room, &mut entry) };
            assert_eq!((number, entry), (0, 0), "a sheet is refused");
            fold = folded(fold, &state);
        }
        out.chunks_exact(4).fold(fold, |fold, four| {
            fold_bits(fold, u32::from_le_bytes(four.try_into().unwrap()))
        })
    })
}

// ---- the model

#[inline]
unsafe extern "C" fn model_check(sheet: *const u8, length: usize, entry: *mut u32) -> u32 {
    let (number, at) = model::judge_alone(std::slice::from_raw_parts(sheet, length));
    *entry = at;
    number
}

#[inline]
unsafe extern "C" fn model_run(
    sheet: *const u8,
    length: usize,
    state: *mut State,
    out: *mut u8,
    room: usize,
    entry: *mut u32,
) -> u32 {
    let sheet = std::slice::from_raw_parts(sheet, length);
    let out = std::slice::from_raw_parts_mut(out, room);
    let ran = model::run(sheet, &*state, out);
    *state = ran.state;
    *entry = ran.entry;
    ran.number
}
