//! Writes the list that the program crates/sheets replays: sheets, and what the model makes of
//! them; and the lines of the example sheets.
//!
//! Numbers are words of four bytes, little-endian. First how many records there are; then a record
//! is 24 words:
//!
//!   length of the sheet, length of the output, number, entry,
//!   the state before (four motors, scale, three sums), the state after,
//!   an entry whose body is asked for, where that body begins, its length,
//!   length of the text
//!
//! and then the bytes of the sheet, of the output after the run, and of the text that `mixrun`
//! prints for the sheet. Before the run byte j of the output is j modulo 251. A float of a state is
//! written as its bits, and a NaN of the state after as 7fc00000. A text of length 0 is not
//! compared.

use std::iter::repeat;
use std::path::Path;
use std::{fs, io};

use comparing::answer::bits;
use comparing::inputs::Inputs;

use super::case::{lent_bytes, Case};
use super::chosen::chosen_sheets;
use super::groups::GROUPS;
use super::model::{self, READ};

/// How many good ones, and how many of each other group, of those whose sheets and outputs have no
/// more than so many bytes.
const GOOD: usize = 80;
const OTHERS: usize = 40;
const LONGEST: usize = 640;

pub fn write(root: &Path) -> io::Result<()> {
    write_sheets(&root.join("crates/sheets"))?;
    write_lines(&root.join("examples"))
}

#[derive(Default)]
struct Sheets {
    records: u32,
    by_number: [u32; 10],
    bytes: Vec<u8>,
}

impl Sheets {
    fn words(&mut self, words: &[u32]) {
        let bytes = words.iter().flat_map(|x| x.to_le_bytes());
        self.bytes.extend(bytes);
    }

    /// Every second record has its text, if `mixrun` reads all of the sheet.
    fn push(&mut self, case: &Case) {
        let sheet = &case.sheet;
        let index = case.index.min(u32::MAX as usize);
        let mut out = lent_bytes(case.room);
        let ran = model::run(sheet, &case.state, &mut out);
        let (from, length) = model::body(sheet, index);
        let text = match self.records % 2 == 0 && sheet.len() <= READ {
            true => model::text(sheet),
            false => Vec::new(),
        };
        let lengths = [sheet.len() as u32, out.len() as u32];
        self.words(&[lengths, [ran.number, ran.entry]].concat());
        self.words(&case.state.map(f32::to_bits));
        self.words(&ran.state.map(|x| bits(&x)));
        self.words(&[index, from, length, text.len()].map(|x| x as u32));
        for part in [sheet, &out, &text] {
            self.bytes.extend(part);
        }
        self.by_number[ran.number as usize] += 1;
        self.records += 1;
    }

    /// Adds the first so many of those that are not too long.
    fn add(&mut self, name: &str, count: usize, inputs: Inputs<impl Fn(u64) -> Case>) {
        let short = |case: &Case| case.sheet.len().max(case.room) <= LONGEST;
        let all = (0..inputs.cases).map(inputs.make);
        for case in all.filter(short).take(count) {
            self.push(&case);
        }
        println!("{name}: {count}, {}", inputs.kinds);
    }
}

fn write_sheets(folder: &Path) -> io::Result<()> {
    let mut sheets = Sheets::default();
    let chosen = chosen_sheets();
    for n in 0..chosen.cases {
        sheets.push(&(chosen.make)(n));
    }
    println!("sheets, chosen: {}, {}", chosen.cases, chosen.kinds);
    let counts = [GOOD].into_iter().chain(repeat(OTHERS));
    for (group, count) in GROUPS.iter().zip(counts) {
        sheets.add(group.name, count, group.inputs());
    }
    let records = sheets.records;
    let bytes = [&records.to_le_bytes()[..], &sheets.bytes].concat();
    fs::create_dir_all(folder)?;
    fs::write(folder.join("stdin"), &bytes)?;
    let line = format!("{records} sheets replayed, 0 differ\n");
    fs::write(folder.join("stdout"), line)?;
    println!("sheets by number, 0 to 9: {:?}", sheets.by_number);
    println!("{records} sheets, {} bytes", bytes.len());
    Ok(())
}

/// Beside each sheet of a folder, what `mixrun` is to print for it.
fn write_lines(folder: &Path) -> io::Result<()> {
    let mut sheets = 0;
    for entry in fs::read_dir(folder)? {
        let path = entry?.path();
        if path.extension() == Some("sheet".as_ref()) {
            let text = model::text(&fs::read(&path)?);
            fs::write(path.with_extension("lines"), text)?;
            sheets += 1;
        }
    }
    println!("examples: {sheets}");
    Ok(())
}
