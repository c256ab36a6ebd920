//! Sheet runners that are wrong on purpose, in the place of ours. Each has to be noticed; and the
//! same runner with no slip must not differ, which shows that it is the slips that are noticed.

use comparing::inputs::Inputs;
use comparing::row::Row;
use comparing::table::Wrong;

use super::case::Case;
use super::chosen::chosen_sheets;
use super::groups::GROUPS;
use super::row::{sheet_row, Given};
use super::slips::{Slip, Slipped};

pub fn wrong() -> Wrong {
    let name = "the runner of the next rows with nothing wrong";
    Wrong {
        right: Some(slipped(Slip::None, name)),
        rows: SLIPS.map(|(slip, name)| slipped(slip, name)).into(),
    }
}

const SLIPS: [(Slip, &str); 36] = [
    (Slip::RefusesAll, "refuses everything"),
    (Slip::VersionUnread, "version not looked at"),
    (Slip::SixtyFiveEntries, "65 entries accepted"),
    (Slip::LengthUnread, "length field not looked at"),
    (
        Slip::LengthInSixteenBits,
        "length compared in its sixteen low bits",
    ),
    (
        Slip::ContentsUncounted,
        "a sheet that ends in its contents not refused for that",
    ),
    (Slip::TestsInAnotherOrder, "tests 7, 6, 5 of an entry"),
    (Slip::TestAfterTest, "test 5 of all entries, then 6, then 7"),
    (Slip::EntriesFromOne, "entry number off by one"),
    (Slip::KindFive, "kind 5 accepted"),
    (Slip::RotorByteUnread, "refusal 6 left out"),
    (
        Slip::OffsetsAtContentsEnd,
        "offset tied to the contents' end for every entry",
    ),
    (
        Slip::OffsetsAtPreviousStart,
        "offset tied to the previous body's start",
    ),
    (Slip::EndUnread, "refusal 8 left out"),
    (Slip::RoomFirst, "refusal 9 tried first"),
    (Slip::RoomUnread, "refusal 9 left out"),
    (Slip::FirstCopied, "entry 0 mixed and its answer copied on"),
    (Slip::EachFromTheStart, "each entry on the state lent"),
    (Slip::ScaleFromBefore, "scale from before the call"),
    (Slip::StateKept, "state kept after an accepted sheet"),
    (Slip::StateOfRefused, "state changed after a refused one"),
    (Slip::TorqueKept, "torque kept after an accepted sheet"),
    (
        Slip::TorqueOfRefused,
        "torque worked out after a refused one",
    ),
    (
        Slip::RunTillRefused,
        "entries before a refused one run all the same",
    ),
    (Slip::BytePast, "a byte past 20k written"),
    (Slip::PlainOfTwenty, "plain body taken as 20 bytes"),
    (Slip::TorqueFirst, "thrust taken from after the torque"),
    (Slip::RotorModuloFour, "rotor byte taken modulo 4"),
    (Slip::NanBitsKept, "bits of a NaN scale written as lent"),
    (Slip::CheckWithoutEntry, "check, 0 for every entry number"),
    (Slip::BodyOfRefused, "body of a refused sheet"),
    (Slip::LastBodyPastCount, "body of the last entry past it"),
    (
        Slip::BodyFromContents,
        "body's place counted from the contents' end",
    ),
    (Slip::TextWithoutZeros, "text, hex without leading zeros"),
    (Slip::TextFromOne, "text, entries from 1"),
    (
        Slip::TextOfRefusedShort,
        "text, a refusal without its entry",
    ),
];

/// The chosen sheets, which differ soonest, and then those of all groups in turn.
fn mixed_sheets() -> Inputs<impl Fn(u64) -> Case> {
    const TURNS: u64 = GROUPS.len() as u64;
    let chosen = chosen_sheets();
    Inputs {
        kinds: "the chosen ones, then the groups in turn".into(),
        cases: 1 << 16,
        make: move |n: u64| match n.checked_sub(chosen.cases) {
            None => (chosen.make)(n),
            Some(n) => GROUPS[(n % TURNS) as usize].case(n / TURNS),
        },
    }
}

fn slipped(slip: Slip, name: &str) -> Row {
    let name = format!("sheets, {name}");
    sheet_row(&name, mixed_sheets(), Slipped(slip), &Given::default())
}
