//! Both sides, ours and the Rust's, in one text: it builds only if both crates have every name in
//! it, with the same signature and the same traits, so that an autopilot can change one for the
//! other.

use std::fmt::Debug;

/// Has these traits, which the Rust derives, or that follow.
pub const fn plain<T: Copy + Send + Sync>() {}
pub const fn shown<T: Copy + Debug + Send + Sync>() {}
pub const fn equated<T: Copy + Debug + PartialEq + Send + Sync>() {}

/// A text over one crate, as the modules `ours` and `rust`.
macro_rules! both_sides {
    ($side:ident = $ours:ident | $rust:ident; $($text:tt)*) => {
        pub mod ours {
            use super::*;
            use $ours as $side;

            $($text)*
        }

        pub mod rust {
            use super::*;
            use $rust as $side;

            $($text)*
        }
    };
}
pub(crate) use both_sides;
