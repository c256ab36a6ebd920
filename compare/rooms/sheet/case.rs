//! A sheet to run, and what it is run with.

use std::array::from_fn;

use comparing::hex::Hex;

use super::model::READ;
use crate::quad::call::State;

/// A sheet, the state and the room for the output that it is run with, the entry whose body is
/// asked for, and whether the printed text is compared too.
#[derive(Clone)]
pub struct Case {
    pub sheet: Vec<u8>,
    pub state: State,
    pub room: usize,
    pub index: usize,
    pub with_text: bool,
}

impl Case {
    /// What `mixrun` takes in of it.
    pub fn read(&self) -> &[u8] {
        &self.sheet[..self.sheet.len().min(READ)]
    }
}

impl Hex for Case {
    /// Of a sheet that is longer than `mixrun` reads, only so much is shown.
    fn hex(&self) -> String {
        let (shown, state) = (self.read().hex(), self.state.hex());
        let more = match self.sheet.len() - self.read().len() {
            0 => String::new(),
            more => format!(" and {more} bytes"),
        };
        let (room, index) = (self.room, self.index);
        format!("[{shown}{more}] state {state} room {room} entry {index}")
    }
}

/// So many bytes as they stand in an output before a run: byte j is j modulo 251, so that one which
/// is changed or moved shows.
pub fn lent_bytes(count: usize) -> Vec<u8> {
    let turn: [u8; 251] = from_fn(|j| j as u8);
    let mut all = turn.repeat(count / turn.len() + 1);
    all.truncate(count);
    all
}
