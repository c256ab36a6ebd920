//! The shape of a capability: what the programs of compare/driver walk.

use std::io;
use std::path::Path;

use crate::list::List;
use crate::table::{Counted, Table, Wrong, ANSWERS};
use crate::timed_commands::Commands;
use crate::timing::Timing;

/// What there is of a capability. What it lacks is empty, as in `NOTHING`.
pub struct Capability {
    /// What its cases are counted as.
    pub counted: Counted,
    /// Ours against the Rust, or against a model where the Rust has none.
    pub table: fn() -> Table,
    /// What is wrong on purpose in the place of ours.
    pub wrong: fn() -> Wrong,
    /// Adds its records to the list of crates/replay.
    pub list: fn(&mut List),
    /// Writes lists of its own, under the repository's root.
    pub own_lists: fn(&Path) -> io::Result<()>,
    /// Ours timed on these commands.
    pub speed: fn(&Commands) -> Vec<Timing>,
}

pub const NOTHING: Capability = Capability {
    counted: ANSWERS,
    table: Table::default,
    wrong: Wrong::default,
    list: |_| {},
    own_lists: |_| Ok(()),
    speed: |_| Vec::new(),
};
