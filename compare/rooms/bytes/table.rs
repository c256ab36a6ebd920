//! Reading and writing, a row each.

use comparing::row::row;
use comparing::table::Table;

use super::inputs::{bytes, Bytes};
use super::model::{bytes_at, put};
use super::ours;

pub fn table() -> Table {
    let rows = vec![
        row(
            "read_u16",
            bytes(),
            |b| ours::read_u16(b.part(), b.at),
            |b| u16::from_le_bytes(bytes_at(b)),
        ),
        row(
            "read_u32",
            bytes(),
            |b| ours::read_u32(b.part(), b.at),
            |b| u32::from_le_bytes(bytes_at(b)),
        ),
        row(
            "write_u16",
            bytes(),
            |b| after(b, |out| ours::write_u16(out, b.at, b.value as u16)),
            |b| after(b, |out| put(out, b.at, &(b.value as u16).to_le_bytes())),
        ),
        row(
            "write_u32",
            bytes(),
            |b| after(b, |out| ours::write_u32(out, b.at, b.value)),
            |b| after(b, |out| put(out, b.at, &b.value.to_le_bytes())),
        ),
    ];
    rows.into()
}

/// All sixteen bytes after a write to the part that is lent.
fn after(b: &Bytes, write: impl Fn(&mut [u8])) -> [u8; 16] {
    let mut all = b.all;
    write(&mut all[..b.lent]);
    all
}
