//! Thrust-floor over any rows, document 02's K6. The Rust has it for the quad alone: by the quad's
//! rows ours is held to the Rust's quad, and by other rows to a model.

pub mod inputs;
pub mod model;

mod list;
#[cfg(feature = "ours")]
mod ours;
#[cfg(feature = "ours")]
mod speed;
#[cfg(feature = "ours")]
mod table;
mod wrong;

use comparing::capability::{Capability, NOTHING};

pub const CAPABILITY: Capability = Capability {
    #[cfg(feature = "ours")]
    table: table::table,
    wrong: wrong::wrong,
    list: list::add,
    #[cfg(feature = "ours")]
    speed: speed::timings,
    ..NOTHING
};
