//! 001's mixer: the mix over any number of rows, which ours is lent as one run, and the two frames
//! of rows that it knows.

pub mod inputs;
pub mod list;
pub mod model;
pub mod rust;

#[cfg(feature = "ours")]
mod ours;
#[cfg(feature = "ours")]
mod speed;
#[cfg(feature = "ours")]
mod table;
mod wrong;

use comparing::capability::{Capability, NOTHING};

pub const CAPABILITY: Capability = Capability {
    #[cfg(feature = "ours")]
    table: table::table,
    wrong: wrong::wrong,
    list: list::add,
    #[cfg(feature = "ours")]
    speed: speed::timings,
    ..NOTHING
};
