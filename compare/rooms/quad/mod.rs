//! The quad: a state of four motors, a scale and the three sums of the motors, and five mixes that
//! change it.

pub mod call;
pub mod chains;
pub mod inputs;
pub mod rust;
pub mod special;

mod list;
#[cfg(feature = "ours")]
mod ours;
#[cfg(feature = "ours")]
pub mod speed;
#[cfg(feature = "ours")]
mod table;
mod wrong;

use comparing::capability::{Capability, NOTHING};

pub const CAPABILITY: Capability = Capability {
    #[cfg(feature = "ours")]
    table: table::table,
    wrong: wrong::wrong,
    list: list::add,
    #[cfg(feature = "ours")]
    speed: speed::timings,
    ..NOTHING
};
