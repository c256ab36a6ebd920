//! What compares, lists and times, whatever it is that is compared: the library under the programs
//! of compare/driver and bindings/rust/driver, and under the rooms of compare/rooms. It knows of no
//! capability.
//!
//! A module rests only on those that stand before it here.

pub mod hex;

pub mod answer;

pub mod random;

pub mod inputs;

pub mod special;

pub mod row;

pub mod table;

pub mod list;

pub mod timing;

pub mod timed_commands;

pub mod capability;
