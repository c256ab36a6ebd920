//! Good sheets, of calls that are given and of any, with states and rooms.

use comparing::random::Random;

use super::case::Case;
use super::fields::set_length;
use super::model::{ANSWER, ENTRY, HEAD, MOST};
use crate::quad::call::{Call, Mix, MIXES};
use crate::quad::inputs::{call, state};

/// The numbers of a body: plain has no floor.
fn body(call: &Call) -> Vec<f32> {
    let [roll, pitch, yaw] = call.torque;
    let all = [call.thrust, roll, pitch, yaw, call.floor];
    match call.mix {
        Mix::Plain => all[..4].to_vec(),
        _ => all.to_vec(),
    }
}

/// The sheet of these calls, up to 255. Document 01 numbers the kinds as the mixes stand; a rotor
/// number is one byte here.
pub fn sheet_of(calls: &[Call]) -> Vec<u8> {
    let mut sheet = vec![1, calls.len() as u8, 0, 0];
    let mut bodies: Vec<u8> = Vec::new();
    for call in calls {
        let at = HEAD + ENTRY * calls.len() + bodies.len();
        let rotor = match call.mix {
            Mix::RotorOut => call.rotor as u8,
            _ => 0,
        };
        sheet.extend([call.mix as u8, rotor]);
        sheet.extend((at as u16).to_le_bytes());
        bodies.extend(body(call).into_iter().flat_map(f32::to_le_bytes));
    }
    sheet.extend(bodies);
    let length = sheet.len();
    set_length(&mut sheet, length);
    sheet
}

/// A call of any mix with a command of any kind. The rotor byte names one of the four, or none.
fn any_call(random: &mut Random) -> Call {
    let mix = random.one_of(&MIXES);
    let rotor = match random.below(3) {
        0 => random.under(4),
        1 => random.one_of(&[4, 5, 7, 8, 127, 128, 252, 255]),
        _ => random.under(256),
    };
    Call {
        rotor,
        ..call(random, mix)
    }
}

pub fn good_sheet(random: &mut Random, k: usize) -> Vec<u8> {
    let calls: Vec<Call> = (0..k).map(|_| any_call(random)).collect();
    sheet_of(&calls)
}

/// A count of entries, 0 to 64: any of them, or more often a small one.
pub fn any_count(random: &mut Random) -> usize {
    let most = random.one_of(&[MOST, 16, 9, 3]);
    random.under(most + 1)
}

/// Room for the answers of k entries: as much as they take, one byte more or less, as much as
/// `mixrun` has, none, or any.
pub fn any_room(random: &mut Random, k: usize) -> usize {
    let exact = ANSWER * k;
    match random.below(12) {
        0..=3 => exact,
        4 | 5 => exact + 1,
        6 => exact.saturating_sub(1),
        7 => 0,
        8..=10 => ANSWER * MOST,
        _ => random.under(ANSWER * MOST + 80),
    }
}

/// An entry of a sheet of k: the first, the last, the one past it, any, or the farthest.
fn any_index(random: &mut Random, k: usize) -> usize {
    match random.below(5) {
        0 => 0,
        1 => k.saturating_sub(1),
        2 => k,
        3 => random.under(k + 2),
        _ => usize::MAX,
    }
}

/// A sheet with a state of any kind, and with a room and an entry that go with the count it has.
pub fn case_of(random: &mut Random, sheet: Vec<u8>) -> Case {
    let k = sheet.get(1).map_or(0, |k| usize::from(*k));
    Case {
        sheet,
        state: state(random),
        room: any_room(random, k),
        index: any_index(random, k),
        with_text: false,
    }
}

pub fn good(random: &mut Random) -> Case {
    let k = any_count(random);
    let sheet = good_sheet(random, k);
    case_of(random, sheet)
}
