//! The fields of a sheet that may be damaged, set and read.

use super::model::{ENTRY, HEAD};

// ---- set, where the sheet has them

pub fn set(sheet: &mut [u8], at: usize, byte: u8) {
    if let Some(to) = sheet.get_mut(at) {
        *to = byte;
    }
}

/// The sixteen low bits of a number, little-endian.
fn set_two(sheet: &mut [u8], at: usize, x: usize) {
    let [low, high] = (x as u16).to_le_bytes();
    set(sheet, at, low);
    set(sheet, at + 1, high);
}

pub fn set_length(sheet: &mut [u8], length: usize) {
    set_two(sheet, 2, length);
}

pub fn set_kind(sheet: &mut [u8], i: usize, kind: u8) {
    set(sheet, HEAD + ENTRY * i, kind);
}

pub fn set_rotor(sheet: &mut [u8], i: usize, rotor: u8) {
    set(sheet, HEAD + ENTRY * i + 1, rotor);
}

pub fn set_offset(sheet: &mut [u8], i: usize, offset: usize) {
    set_two(sheet, HEAD + ENTRY * i + 2, offset);
}

/// A sheet of another length that says so. New bytes are 0.
pub fn resized(sheet: &mut Vec<u8>, length: usize) {
    sheet.resize(length, 0);
    set_length(sheet, length);
}

// ---- read, 0 where it has none

pub fn byte(sheet: &[u8], at: usize) -> u8 {
    sheet.get(at).copied().unwrap_or(0)
}

pub fn kind(sheet: &[u8], i: usize) -> u8 {
    byte(sheet, HEAD + ENTRY * i)
}

pub fn offset(sheet: &[u8], i: usize) -> usize {
    let at = HEAD + ENTRY * i + 2;
    usize::from(u16::from_le_bytes([byte(sheet, at), byte(sheet, at + 1)]))
}

/// Where the contents of a sheet end by the count that it has.
pub fn contents_end(sheet: &[u8]) -> usize {
    HEAD + ENTRY * usize::from(byte(sheet, 1))
}
