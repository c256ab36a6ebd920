//! `MixerN`: any airframe of up to eight rotors, as eight rows and a count.

pub mod frame;
pub mod inputs;
pub mod list;
pub mod rust;

#[cfg(feature = "ours")]
mod ours;
#[cfg(feature = "ours")]
mod speed;
#[cfg(feature = "ours")]
mod table;
mod wrong;

use comparing::capability::{Capability, NOTHING};

pub const CAPABILITY: Capability = Capability {
    #[cfg(feature = "ours")]
    table: table::table,
    wrong: wrong::wrong,
    list: list::add,
    #[cfg(feature = "ours")]
    speed: speed::timings,
    ..NOTHING
};
