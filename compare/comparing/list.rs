//! The list that the program crates/replay replays: inputs, and the answers to them.
//!
//! It is words of four bytes, little-endian: how many records there are, and then the records. A
//! record is its head, its inputs and its answers. A head is 0xKKAAIIII: the kind, how many words
//! the answers take, and how many the inputs take. The numbers of the kinds are those of
//! crates/replay/src. A float is written as its bits, and an answer that is a NaN as 7fc00000. A
//! truth is 1 or 0.

use std::path::Path;
use std::{fs, io};

use crate::answer::bits;
use crate::inputs::Inputs;

/// The inputs and the answers of a record.
pub type Record = (Vec<u32>, Vec<u32>);

/// Inputs that are floats, with whatever bits they have.
pub fn words(inputs: &[f32]) -> Vec<u32> {
    inputs.iter().map(|x| x.to_bits()).collect()
}

/// Inputs and answers that are floats.
pub fn record(inputs: &[f32], answers: &[f32]) -> Record {
    (words(inputs), answers.iter().map(bits).collect())
}

#[derive(Default)]
pub struct List {
    records: u32,
    words: Vec<u32>,
}

impl List {
    /// Adds the first so many of the inputs, and says how many and which they are.
    pub fn add<I>(
        &mut self,
        name: &str,
        kind: u32,
        count: u64,
        inputs: Inputs<impl Fn(u64) -> I>,
        record: impl Fn(&I) -> Record,
    ) {
        for n in 0..count {
            self.push(kind, record(&(inputs.make)(n)));
        }
        println!("{name}: {count}, {}", inputs.kinds);
    }

    /// Adds all of the inputs.
    pub fn add_all<I>(
        &mut self,
        name: &str,
        kind: u32,
        inputs: Inputs<impl Fn(u64) -> I>,
        record: impl Fn(&I) -> Record,
    ) {
        self.add(name, kind, inputs.cases, inputs, record);
    }

    pub fn push(&mut self, kind: u32, (inputs, answers): Record) {
        let head = kind << 24 | (answers.len() as u32) << 16 | inputs.len() as u32;
        self.words.push(head);
        self.words.extend(inputs);
        self.words.extend(answers);
        self.records += 1;
    }

    /// Writes under a folder stdin, the list, and stdout, what the program is to print.
    pub fn write(&self, folder: &Path) -> io::Result<()> {
        let records = self.records;
        let words = [records].into_iter().chain(self.words.iter().copied());
        let bytes: Vec<u8> = words.flat_map(u32::to_le_bytes).collect();
        fs::write(folder.join("stdin"), &bytes)?;
        let line = format!("{records} answers compared, 0 differ\n");
        fs::write(folder.join("stdout"), line)?;
        println!("{records} records, {} bytes", bytes.len());
        Ok(())
    }
}
