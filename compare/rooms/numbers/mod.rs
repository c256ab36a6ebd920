//! The functions of one number: tests, treating, limiting and clamping, and the bits of a float.

pub mod inputs;
pub mod rust;

mod list;
#[cfg(feature = "ours")]
mod ours;
#[cfg(feature = "ours")]
mod table;
mod wrong;

use comparing::capability::{Capability, NOTHING};

pub const CAPABILITY: Capability = Capability {
    #[cfg(feature = "ours")]
    table: table::table,
    wrong: wrong::wrong,
    list: list::add,
    ..NOTHING
};
