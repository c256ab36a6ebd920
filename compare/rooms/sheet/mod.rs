//! The command sheet: up to 64 calls of the quad's mixes in one run of bytes, judged as a whole and
//! then run one after another. The Rust has none, and ours is held to a model over the Rust's
//! mixes.

pub mod case;
pub mod chosen;
pub mod groups;
pub mod model;
pub mod row;
pub mod side;

mod damaged;
mod fields;
mod good;
mod list;
#[cfg(feature = "ours")]
mod ours;
mod outcome;
mod slips;
#[cfg(feature = "ours")]
mod speed;
#[cfg(feature = "ours")]
mod table;
mod wrong;

use comparing::capability::{Capability, NOTHING};
use comparing::table::Counted;

/// Whole sheets are counted, each with all that is compared of it.
const SHEETS: Counted = Counted {
    cases: "sheets",
    wrong: "sheet runners",
};

pub const CAPABILITY: Capability = Capability {
    counted: SHEETS,
    #[cfg(feature = "ours")]
    table: table::table,
    wrong: wrong::wrong,
    own_lists: list::write,
    #[cfg(feature = "ours")]
    speed: speed::timings,
    ..NOTHING
};
