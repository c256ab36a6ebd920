//! A sheet runner that makes one slip on purpose, in the place of ours. Apart from its slip it is
//! right. It is written otherwise than the model: where a body is due is a sum over the entries
//! before it, and bytes past the end are read as 0.

use comparing::answer::bits;

use super::model::{Ran, Told};
use super::side::{Place, Side};
use crate::quad::call::{self, sums, Call, State, FRESH, MIXES};
use crate::quad::rust;

/// What is done wrong.
#[derive(Clone, Copy, PartialEq)]
pub enum Slip {
    None,
    RefusesAll,
    VersionUnread,
    SixtyFiveEntries,
    LengthUnread,
    LengthInSixteenBits,
    ContentsUncounted,
    TestsInAnotherOrder,
    TestAfterTest,
    EntriesFromOne,
    KindFive,
    RotorByteUnread,
    OffsetsAtContentsEnd,
    OffsetsAtPreviousStart,
    EndUnread,
    RoomFirst,
    RoomUnread,
    FirstCopied,
    EachFromTheStart,
    ScaleFromBefore,
    StateKept,
    StateOfRefused,
    TorqueKept,
    TorqueOfRefused,
    RunTillRefused,
    BytePast,
    PlainOfTwenty,
    TorqueFirst,
    RotorModuloFour,
    NanBitsKept,
    CheckWithoutEntry,
    BodyOfRefused,
    LastBodyPastCount,
    BodyFromContents,
    TextWithoutZeros,
    TextFromOne,
    TextOfRefusedShort,
}

#[derive(Clone, Copy)]
pub struct Slipped(pub Slip);

fn byte(sheet: &[u8], at: usize) -> usize {
    sheet.get(at).map_or(0, |b| usize::from(*b))
}

fn two(sheet: &[u8], at: usize) -> usize {
    byte(sheet, at) + 256 * byte(sheet, at + 1)
}

fn four(sheet: &[u8], at: usize) -> u32 {
    (two(sheet, at) + 65_536 * two(sheet, at + 2)) as u32
}

fn kind(sheet: &[u8], i: usize) -> usize {
    byte(sheet, 4 + 4 * i)
}

fn rotor(sheet: &[u8], i: usize) -> usize {
    byte(sheet, 5 + 4 * i)
}

/// A state with other sums.
fn with_sums(&[a, b, c, d, scale, ..]: &State, sums: [f32; 3]) -> State {
    call::state([a, b, c, d], scale, sums)
}

impl Slipped {
    fn slips(self, slip: Slip) -> bool {
        self.0 == slip
    }

    // ---- the numbers

    fn size(self, kind: usize) -> usize {
        if kind == 0 && !self.slips(Slip::PlainOfTwenty) {
            16
        } else {
            20
        }
    }

    /// Where the body of entry i is due, and at i = k where the last one ends.
    fn due(self, sheet: &[u8], i: usize) -> usize {
        let contents = 4 + 4 * byte(sheet, 1);
        let before = match self.0 {
            Slip::OffsetsAtContentsEnd => 0,
            Slip::OffsetsAtPreviousStart => i.saturating_sub(1),
            _ => i,
        };
        let sizes = (0..before).map(|j| self.size(kind(sheet, j)));
        contents + sizes.sum::<usize>()
    }

    /// Whether one of the tests 5 to 7 fails at an entry.
    fn fails(self, sheet: &[u8], test: u32, i: usize) -> bool {
        let most = if self.slips(Slip::KindFive) { 5 } else { 4 };
        match test {
            5 => most < kind(sheet, i),
            6 => {
                let unread = self.slips(Slip::RotorByteUnread);
                rotor(sheet, i) != 0 && kind(sheet, i) != 4 && !unread
            }
            _ => two(sheet, 6 + 4 * i) != self.due(sheet, i),
        }
    }

    /// The first of the tests 5 to 7 that fails, and its entry.
    fn bad_entry(self, sheet: &[u8]) -> Option<Told> {
        let tests = match self.0 {
            Slip::TestsInAnotherOrder => [7, 6, 5],
            _ => [5, 6, 7],
        };
        let entries = 0..byte(sheet, 1);
        let by_entry = entries.clone().flat_map(|i| tests.map(|test| (test, i)));
        let by_test = tests
            .into_iter()
            .flat_map(|test| entries.clone().map(move |i| (test, i)));
        let all: Vec<_> = match self.0 {
            Slip::TestAfterTest => by_test.collect(),
            _ => by_entry.collect(),
        };
        let (test, i) = all
            .into_iter()
            .find(|(test, i)| self.fails(sheet, *test, *i))?;
        let named = if self.slips(Slip::EntriesFromOne) {
            i + 1
        } else {
            i
        };
        Some((test, named as u32))
    }

    fn bad_length(self, sheet: &[u8]) -> bool {
        let (length, field) = (sheet.len(), two(sheet, 2));
        let differs = match self.0 {
            Slip::LengthUnread => false,
            Slip::LengthInSixteenBits => field != length % 65_536,
            _ => field != length,
        };
        let counted = !self.slips(Slip::ContentsUncounted);
        differs || counted && length < 4 + 4 * byte(sheet, 1)
    }

    fn judge(self, sheet: &[u8], room: usize) -> Told {
        let k = byte(sheet, 1);
        let short = room < 20 * k && !self.slips(Slip::RoomUnread);
        let most = if self.slips(Slip::SixtyFiveEntries) {
            65
        } else {
            64
        };
        let number = if self.slips(Slip::RefusesAll) {
            4
        } else if short && self.slips(Slip::RoomFirst) {
            9
        } else if sheet.len() < 4 {
            1
        } else if byte(sheet, 0) != 1 && !self.slips(Slip::VersionUnread) {
            2
        } else if most < k {
            3
        } else if self.bad_length(sheet) {
            4
        } else if let Some(told) = self.bad_entry(sheet) {
            return told;
        } else if self.bad_end(sheet) {
            8
        } else if short {
            9
        } else {
            0
        };
        (number, 0)
    }

    fn bad_end(self, sheet: &[u8]) -> bool {
        let end = match byte(sheet, 1) {
            0 => 4,
            k => two(sheet, 2 + 4 * k) + self.size(kind(sheet, k - 1)),
        };
        end != sheet.len() && !self.slips(Slip::EndUnread)
    }

    // ---- the run

    fn call(self, sheet: &[u8], i: usize) -> Call {
        let at = two(sheet, 6 + 4 * i);
        let [a, b, c, d, floor] =
            [0, 4, 8, 12, 16].map(|from| f32::from_bits(four(sheet, at + from)));
        let (thrust, torque) = match self.0 {
            Slip::TorqueFirst => (d, [a, b, c]),
            _ => (a, [b, c, d]),
        };
        let rotor = rotor(sheet, i);
        Call {
            mix: MIXES[kind(sheet, i).min(4)],
            torque,
            thrust,
            floor,
            rotor: match self.0 {
                Slip::RotorModuloFour => rotor % 4,
                _ => rotor,
            },
        }
    }

    /// Writes an answer at its place, if there is room.
    fn write(self, out: &mut [u8], i: usize, answer: [f32; 5]) {
        let bits = answer.map(|x| match self.0 {
            Slip::NanBitsKept => x.to_bits(),
            _ => bits(&x),
        });
        let bytes: Vec<u8> = bits.into_iter().flat_map(u32::to_le_bytes).collect();
        if let Some(place) = out.get_mut(20 * i..20 * i + 20) {
            place.copy_from_slice(&bytes);
        }
    }

    /// Runs so many entries, and gives the state after them.
    fn run_entries(self, sheet: &[u8], entries: usize, start: &State, out: &mut [u8]) -> State {
        let mut state = *start;
        for i in 0..entries {
            let from = match self.0 {
                Slip::EachFromTheStart => *start,
                _ => state,
            };
            let which = if self.slips(Slip::FirstCopied) { 0 } else { i };
            let mut mixer = rust::mixer(&from);
            rust::mix(&mut mixer, &self.call(sheet, which));
            let before = state[4];
            state = rust::state(&mixer);
            let [a, b, c, d, mut scale, ..] = state;
            if self.slips(Slip::ScaleFromBefore) {
                scale = before;
            }
            self.write(out, i, [a, b, c, d, scale]);
        }
        if entries != 0 && self.slips(Slip::BytePast) && 20 * entries < out.len() {
            out[20 * entries] = 0;
        }
        state
    }
}

impl Side for Slipped {
    fn check(self, sheet: &[u8]) -> Told {
        let (number, entry) = self.judge(sheet, usize::MAX);
        match self.0 {
            Slip::CheckWithoutEntry => (number, 0),
            _ => (number, entry),
        }
    }

    fn run(self, sheet: &[u8], start: &State, out: &mut [u8]) -> Ran {
        let (number, entry) = self.judge(sheet, out.len());
        let entries = match (number, self.0) {
            (0, _) => byte(sheet, 1),
            (5..=7, Slip::RunTillRefused) => entry as usize,
            _ => 0,
        };
        let after = self.run_entries(sheet, entries, start, out);
        let state = match (number, self.0) {
            (0, Slip::StateKept) => *start,
            (0, Slip::TorqueKept) => with_sums(&after, sums(start)),
            (0, _) => after,
            (_, Slip::StateOfRefused) => FRESH,
            (_, Slip::TorqueOfRefused) => rust::state(&rust::mixer(start)),
            _ => *start,
        };
        Ran {
            number,
            entry,
            state,
        }
    }

    fn body(self, sheet: &[u8], i: usize) -> Place {
        let k = byte(sheet, 1);
        let i = match self.0 {
            Slip::LastBodyPastCount if 0 < k && k <= i => k - 1,
            _ => i,
        };
        let refused = self.judge(sheet, usize::MAX) != (0, 0);
        if k <= i || refused && !self.slips(Slip::BodyOfRefused) {
            return (0, 0);
        }
        let before = match self.0 {
            Slip::BodyFromContents => self.due(sheet, 0),
            _ => 0,
        };
        let at = two(sheet, 6 + 4 * i);
        (at - before, self.size(kind(sheet, i)))
    }

    fn text(self, sheet: &[u8]) -> Vec<u8> {
        let mut out = vec![0; 20 * 65];
        let ran = self.run(sheet, &FRESH, &mut out);
        if ran.number != 0 {
            let at = match self.0 {
                Slip::TextOfRefusedShort => String::new(),
                _ => format!(" at {}", ran.entry),
            };
            return format!("refused {}{at}\n", ran.number).into_bytes();
        }
        let mut text = String::new();
        for (i, answer) in out.chunks_exact(20).take(byte(sheet, 1)).enumerate() {
            let named = if self.slips(Slip::TextFromOne) {
                i + 1
            } else {
                i
            };
            text += &format!("{named} {}", kind(sheet, i));
            for word in answer.chunks_exact(4) {
                let bits = four(word, 0);
                text += &match self.0 {
                    Slip::TextWithoutZeros => format!(" {bits:x}"),
                    _ => format!(" {bits:08x}"),
                };
            }
            text.push('\n');
        }
        text.into_bytes()
    }
}
