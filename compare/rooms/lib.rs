//! What is compared: a room for each capability. A room has of these what applies:
//!
//!   mod.rs      what the capability is, and its one value `CAPABILITY`, which the programs walk
//!   inputs.rs   what it is asked, and other files of inputs where one would be long
//!   rust.rs     how the Rust answers
//!   model.rs    how a model answers, where the Rust has nothing to say
//!   ours.rs     how ours answers: the functions of our archives, declared and called
//!   table.rs    the rows that hold ours to the Rust or to the model
//!   wrong.rs    what is wrong on purpose in the place of ours
//!   list.rs     what crates/replay replays of it, or a list of its own
//!   speed.rs    how ours is timed
//!
//! A new capability is a new folder, and a line at the end of this file.
//!
//! What calls ours is built with the feature `ours` alone: the program that writes the lists and
//! the tests of bindings/rust do without it, and are not linked with our archives here.
//!
//! In a room a file rests on the files of that room that stand under it, and on files of earlier
//! rooms; never the other way about. Nothing rests on a mod.rs but this file.

use comparing::capability::Capability;

/// The modules of the rooms, and all of their capabilities.
macro_rules! rooms {
    ($($room:ident,)*) => {
        $(pub mod $room;)*

        pub const CAPABILITIES: &[Capability] = &[$($room::CAPABILITY),*];
    };
}

// The order is that in which they are printed.
rooms! {
    numbers,
    fit_scale,
    equations,
    bytes,
    quad,
    frames,
    rows,
    thrust_floor_rows,
    sheet,
}
