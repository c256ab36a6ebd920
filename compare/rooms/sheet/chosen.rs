//! Chosen sheets: document 01's, the bench figures, and the boundaries of every rule, on sheets
//! that are as small as can show them. They are compared, and the list begins with them.

use comparing::inputs::Inputs;

use super::case::Case;
use super::fields::{
    contents_end, offset, resized, set, set_kind, set_length, set_offset, set_rotor,
};
use super::good::sheet_of;
use super::model::{ANSWER, MOST};
use crate::quad::call::{Call, State, FRESH, MIXES};
use crate::quad::special::chosen_calls;

pub fn chosen_sheets() -> Inputs<impl Fn(u64) -> Case> {
    let mut chosen = Chosen::default();
    chosen.add_documents();
    chosen.add_figures();
    chosen.add_counts();
    chosen.add_entries();
    chosen.add_lengths();
    chosen.add_heads();
    chosen.add_offsets();
    chosen.add_ends();
    chosen.add_last();
    chosen.add_pairs();
    let all = chosen.0;
    Inputs {
        kinds: "document 01's, bench figures, boundaries".into(),
        cases: all.len() as u64,
        make: move |n| all[n as usize].clone(),
    }
}

/// Document 01's three sheets: one entry, none, and a count over 64.
const ONE: [u8; 28] = [
    0x01, 0x01, 0x1c, 0x00, 0x01, 0x00, 0x08, 0x00, 0x00, 0x00, 0x00, 0x3f, 0x00, 0x00, 0x00, 0x3f,
    0x00, 0x00, 0x00, 0x00, 0x00, 0x00, 0x00, 0x00, 0x00, 0x00, 0x80, 0x3e,
];
const NONE: [u8; 4] = [0x01, 0x00, 0x04, 0x00];
const OVER: [u8; 4] = [0x01, 0x41, 0x04, 0x00];

/// A negative NaN that is not quiet.
const NAN: f32 = f32::from_bits(0xff80_0001);

/// States to start from, in turn.
const STATES: [State; 4] = [
    FRESH,
    [0.25, 0.5, 0.75, 1.0, 0.5, 1.0, -0.0, 0.5],
    [NAN, 0.5, f32::NAN, -0.0, NAN, -1.0, NAN, f32::NAN],
    [
        f32::INFINITY,
        2.0,
        -1.0,
        f32::NEG_INFINITY,
        -0.0,
        f32::INFINITY,
        -0.0,
        0.25,
    ],
];

/// A call of the bench figures and zeros, in steps that have every mix among the first few.
fn figure(n: usize) -> Call {
    let all = chosen_calls();
    (all.make)(5 * n as u64 % all.cases).1
}

/// A good sheet of so many entries: of four, two plain ones come before priority and airmode.
fn good(k: usize) -> Vec<u8> {
    let calls: Vec<Call> = (0..k).map(figure).collect();
    sheet_of(&calls)
}

/// A good sheet, changed.
fn changed(k: usize, change: impl FnOnce(&mut Vec<u8>)) -> Vec<u8> {
    let mut sheet = good(k);
    change(&mut sheet);
    sheet
}

#[derive(Default)]
struct Chosen(Vec<Case>);

impl Chosen {
    /// Adds a sheet with so much room. The states, and the entries whose bodies are asked for, go
    /// in turn.
    fn add_with_room(&mut self, sheet: Vec<u8>, room: usize) {
        let n = self.0.len();
        let k = sheet.get(1).map_or(0, |k| usize::from(*k));
        let indices = [0, k.saturating_sub(1), k, k / 2, usize::MAX];
        self.0.push(Case {
            sheet,
            state: STATES[n % STATES.len()],
            room,
            index: indices[n % indices.len()],
            with_text: true,
        });
    }

    /// Adds a sheet with room for four entries, the most that those have which can be accepted.
    fn add(&mut self, sheet: Vec<u8>) {
        self.add_with_room(sheet, 4 * ANSWER);
    }

    /// Adds a sheet as `mixrun` runs it.
    fn add_fresh(&mut self, sheet: Vec<u8>) {
        self.add_with_room(sheet, MOST * ANSWER);
        if let Some(case) = self.0.last_mut() {
            case.state = FRESH;
            case.index = 0;
        }
    }

    fn add_documents(&mut self) {
        self.add_fresh(ONE.to_vec());
        self.add_fresh(NONE.to_vec());
        self.add_fresh(OVER.to_vec());
    }

    /// Each figure alone, and all after another.
    fn add_figures(&mut self) {
        let all = chosen_calls().cases as usize;
        for n in 0..all {
            let sheet = sheet_of(&[figure(n)]);
            self.add_with_room(sheet, ANSWER);
        }
        self.add_fresh(good(all));
    }

    /// Counts at their ends, with as much room as they need, a byte less and more, and none; then
    /// sheets of more entries than may be.
    fn add_counts(&mut self) {
        for k in [0, 1, 2, 3, MOST - 1, MOST] {
            let exact = ANSWER * k;
            for room in [exact, exact.saturating_sub(1), exact + 1, 0] {
                self.add_with_room(good(k), room);
            }
        }
        for (k, room) in [(65, 65 * ANSWER), (65, MOST * ANSWER), (66, 0), (255, 0)] {
            self.add_with_room(good(k), room);
        }
    }

    /// One entry of each kind with rotor bytes of each class, and kinds over 4.
    fn add_entries(&mut self) {
        for kind in [0, 1, 2, 3, 4, 5, 255] {
            let mix = MIXES[kind.min(4)];
            for rotor in [0, 1, 2, 3, 4, 5, 128, 255] {
                let mut sheet = sheet_of(&[Call { mix, ..figure(2) }]);
                set_kind(&mut sheet, 0, kind as u8);
                set_rotor(&mut sheet, 0, rotor);
                self.add(sheet);
            }
        }
    }

    /// A sheet of one plain entry at every length, with the length field as it was and then right;
    /// and one whose length field has the sixteen low bits of the length, and not all of it.
    fn add_lengths(&mut self) {
        let right = good(1).len();
        for length in 0..=right + 2 {
            self.add(changed(1, |sheet| sheet.resize(length, 0)));
            self.add(changed(1, |sheet| resized(sheet, length)));
        }
        self.add(changed(1, |sheet| resized(sheet, right + (1 << 16))));
    }

    /// Versions, counts and length fields of a sheet of one entry.
    fn add_heads(&mut self) {
        for version in [0, 2, 3, 128, 255] {
            self.add(changed(1, |sheet| set(sheet, 0, version)));
        }
        for count in [0, 2, 3, 64, 65, 66, 128, 255] {
            self.add(changed(1, |sheet| set(sheet, 1, count)));
        }
        let length = good(1).len();
        for field in [0, length - 1, length + 1, length + 256, length << 8, 65_535] {
            self.add(changed(1, |sheet| set_length(sheet, field)));
        }
    }

    /// Offsets of each of four entries.
    fn add_offsets(&mut self) {
        let sheet = good(4);
        let contents = contents_end(&sheet);
        for i in 0..4 {
            let right = offset(&sheet, i);
            let before = offset(&sheet, i.saturating_sub(1));
            let near = [right - 1, right + 1, right - 4, right + 4, right + 256];
            let far = [0, contents, before, right << 8, 65_535];
            for wrong in near.into_iter().chain(far) {
                self.add(changed(4, |sheet| set_offset(sheet, i, wrong)));
            }
        }
    }

    /// Ends of the last body, and of a sheet of no entries.
    fn add_ends(&mut self) {
        let sheet = good(4);
        let (length, contents) = (sheet.len(), contents_end(&sheet));
        let others = [contents - 1, contents, length - 4, length - 1, length + 1];
        for other in others.into_iter().chain([length + 4, length + 20]) {
            self.add(changed(4, |sheet| resized(sheet, other)));
        }
        self.add(changed(4, |sheet| set_kind(sheet, 3, 0)));
        self.add(changed(2, |sheet| set_kind(sheet, 1, 1)));
        for other in [5, 8, 24] {
            self.add(changed(0, |sheet| resized(sheet, other)));
        }
    }

    /// The last of the most entries.
    fn add_last(&mut self) {
        for number in [5, 6, 7] {
            let sheet = changed(MOST, |sheet| damage(sheet, &mut 0, number, MOST - 1));
            self.add(sheet);
        }
    }

    /// A sheet of four entries with two damages, at one entry or at two.
    fn add_pair(&mut self, (a, i): (u32, usize), (b, j): (u32, usize)) {
        let mut room = 4 * ANSWER;
        let sheet = changed(4, |sheet| {
            damage(sheet, &mut room, b, j);
            damage(sheet, &mut room, a, i);
        });
        self.add_with_room(sheet, room);
    }

    /// Every two of the numbers 2 to 9, the later number at the earlier entry, and for those that
    /// come with an entry also at the same and at a later one.
    fn add_pairs(&mut self) {
        for a in 2..=9 {
            for b in a..=9 {
                self.add_pair((a, 2), (b, 1));
                if 5 <= a && b <= 7 {
                    self.add_pair((a, 1), (b, 1));
                    self.add_pair((a, 1), (b, 2));
                }
            }
        }
    }
}

/// Makes a number due, at entry i if it comes with one. The later number of two goes first, so that
/// it does not undo the earlier one.
fn damage(sheet: &mut Vec<u8>, room: &mut usize, number: u32, i: usize) {
    let (length, right) = (sheet.len(), offset(sheet, i));
    match number {
        2 => set(sheet, 0, 2),
        3 => set(sheet, 1, 65),
        4 => set_length(sheet, length + 1),
        5 => set_kind(sheet, i, 5),
        6 => set_rotor(sheet, i, 4),
        7 => set_offset(sheet, i, right + 1),
        8 => resized(sheet, length + 1),
        _ => *room -= 1,
    }
}
