//! Damaged sheets. A good one is made and then changed, so that a number of document 01's table is
//! due, or at random. What is due in the end, the model says.

use comparing::random::Random;

use super::case::Case;
use super::fields::{
    byte, contents_end, kind, offset, resized, set, set_kind, set_length, set_offset, set_rotor,
};
use super::good::{any_count, any_room, case_of, good_sheet};
use super::model::{ANSWER, ENTRY, HEAD, READ};

// ---- a number aimed at

fn any_byte(random: &mut Random) -> u8 {
    random.below(256) as u8
}

/// Damages a sheet, aiming at this number; an earlier one is due if the sheet is damaged already.
fn damage(random: &mut Random, case: &mut Case, number: u64) {
    let sheet = &mut case.sheet;
    let k = usize::from(byte(sheet, 1));
    let i = random.under(k.max(1));
    match number {
        1 => sheet.truncate(random.under(HEAD)),
        2 => {
            let other = 2 + random.below(255);
            set(sheet, 0, random.one_of(&[0, 2, other as u8]));
        }
        3 => too_many(random, case),
        4 => bad_length(random, sheet),
        5 => {
            let over = 5 + random.below(251) as u8;
            set_kind(sheet, i, random.one_of(&[5, 255, over]));
        }
        6 => {
            if kind(sheet, i) == 4 {
                set_kind(sheet, i, 3);
            }
            set_rotor(sheet, i, 1 + random.below(255) as u8);
        }
        7 => bad_offset(random, sheet, i),
        8 => bad_end(random, sheet),
        _ => case.room = random.under((ANSWER * k).max(1)),
    }
}

/// A count over 64 in the place of the right one, or a sheet that really has so many entries.
fn too_many(random: &mut Random, case: &mut Case) {
    let over = 65 + random.under(191);
    let k = random.one_of(&[65, 66, 128, 255, over]);
    if random.below(2) == 0 {
        set(&mut case.sheet, 1, k as u8);
    } else {
        case.sheet = good_sheet(random, k);
        case.room = any_room(random, k);
    }
}

/// A length field that differs, a length that does, a sheet that ends in its contents and says so,
/// or a length of which only the sixteen low bits are those of the field.
fn bad_length(random: &mut Random, sheet: &mut Vec<u8>) {
    let length = sheet.len();
    match random.below(8) {
        0 => set_length(sheet, length + 1),
        1 => set_length(sheet, length.saturating_sub(1)),
        2 => set_length(sheet, usize::from((length as u16).swap_bytes())),
        3 => set_length(sheet, random.under(1 << 16)),
        4 => sheet.push(any_byte(random)),
        5 => sheet.truncate(length.saturating_sub(1)),
        6 => {
            let end = HEAD + random.under(contents_end(sheet) - HEAD + 1);
            resized(sheet, end.min(length));
        }
        _ => resized(sheet, length + (1 << 16)),
    }
}

/// An offset that is near the right one, or another that a reader might take for it.
fn bad_offset(random: &mut Random, sheet: &mut [u8], i: usize) {
    let right = offset(sheet, i);
    let step = random.one_of(&[1, 1, 4, 16, 20, 256]);
    let wrong = match random.below(6) {
        0 => right + step,
        1 => right.wrapping_sub(step),
        2 => contents_end(sheet),
        3 => offset(sheet, i.saturating_sub(1)),
        4 => usize::from((right as u16).swap_bytes()),
        _ => random.under(1 << 16),
    };
    set_offset(sheet, i, if wrong == right { right + 1 } else { wrong });
}

/// Bytes more or fewer after the contents, with the length that the field says, or a last body of
/// the other length.
fn bad_end(random: &mut Random, sheet: &mut Vec<u8>) {
    let (length, contents) = (sheet.len(), contents_end(sheet));
    let last = usize::from(byte(sheet, 1)).saturating_sub(1);
    match random.below(4) {
        0 => resized(sheet, length + 1),
        1 => resized(sheet, length + 1 + random.under(40)),
        2 if contents < length => resized(sheet, length - 1),
        _ => {
            let other = if kind(sheet, last) == 0 { 1 } else { 0 };
            set_kind(sheet, last, other);
            set_rotor(sheet, last, 0);
        }
    }
}

pub fn with_one_damage(random: &mut Random) -> Case {
    let number = 1 + random.below(9);
    let k = any_count(random);
    let entries = if number == 4 || number == 8 {
        k
    } else {
        k.max(1)
    };
    let sheet = good_sheet(random, entries);
    let mut case = case_of(random, sheet);
    damage(random, &mut case, number);
    case
}

pub fn with_two_damages(random: &mut Random) -> Case {
    let k = 1 + random.under(8);
    let sheet = good_sheet(random, k);
    let mut case = case_of(random, sheet);
    for _ in 0..2 {
        let number = random.one_of(&[2, 3, 4, 5, 5, 5, 6, 6, 6, 7, 7, 7, 8, 9]);
        damage(random, &mut case, number);
    }
    case
}

// ---- no number aimed at

pub fn of_any_length(random: &mut Random) -> Case {
    let k = any_count(random);
    let mut sheet = good_sheet(random, k);
    let (length, contents) = (sheet.len(), contents_end(&sheet));
    let near = [HEAD - 1, HEAD, HEAD + 1, contents - 1, contents];
    let to = match random.below(16) {
        0..=2 => length - 1,
        3..=5 => length + 1,
        6..=8 => random.under(length + 1),
        9 => length + random.under(40),
        10 | 11 => random.one_of(&near),
        12 => random.one_of(&[0, READ - 1, READ, READ + 1]),
        13 => random.one_of(&[65_535, 65_536, 65_536 + length]),
        _ => length,
    };
    sheet.resize(to, any_byte(random));
    match random.below(4) {
        0 => {}
        1 => set_length(&mut sheet, to.saturating_sub(1)),
        2 => set_length(&mut sheet, to + 1),
        _ => set_length(&mut sheet, to),
    }
    case_of(random, sheet)
}

pub fn changed(random: &mut Random) -> Case {
    let k = any_count(random);
    let mut sheet = good_sheet(random, k);
    for _ in 0..1 + random.below(3) {
        let most = random.one_of(&[contents_end(&sheet), sheet.len()]);
        let at = random.under(most.min(sheet.len()));
        let was = byte(&sheet, at);
        let bit = 1 << random.below(8);
        let any = any_byte(random);
        let to = [any, was ^ bit, was.wrapping_add(1), was.wrapping_sub(1)];
        set(&mut sheet, at, random.one_of(&to));
    }
    case_of(random, sheet)
}

/// Bytes of any kind; after that the version, a small count and the length right, and after that
/// the entries almost right, so that the later tests are come to.
pub fn at_random(random: &mut Random) -> Case {
    let most = random.one_of(&[8, 80, 80, 1600]);
    let length = random.under(most);
    let mut sheet: Vec<u8> = (0..length).map(|_| any_byte(random)).collect();
    let right = random.below(3);
    if right == 0 {
        return case_of(random, sheet);
    }
    let k = random.under(4);
    set(&mut sheet, 0, 1);
    set(&mut sheet, 1, k as u8);
    set_length(&mut sheet, length);
    if right == 2 {
        let mut at = HEAD + ENTRY * k;
        for i in 0..k {
            let kind = random.one_of(&[0, 1, 2, 3, 4, 4, 5]);
            set_kind(&mut sheet, i, kind);
            set_rotor(&mut sheet, i, random.one_of(&[0, 0, 0, 0, 0, 1]));
            set_offset(&mut sheet, i, at);
            at += if kind == 0 { 16 } else { 20 };
        }
        if random.below(2) == 0 {
            resized(&mut sheet, at);
        }
    }
    case_of(random, sheet)
}
