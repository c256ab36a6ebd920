//! Numbers in bytes, read and written at any place. The Rust has nothing of it: what ours is held
//! to is a model over Rust's own bytes of a number.

pub mod inputs;
pub mod model;

#[cfg(feature = "ours")]
mod ours;
#[cfg(feature = "ours")]
mod table;

use comparing::capability::{Capability, NOTHING};

pub const CAPABILITY: Capability = Capability {
    #[cfg(feature = "ours")]
    table: table::table,
    ..NOTHING
};
