//! A fit scale that is wrong on purpose, in the place of ours. It follows `scale_to_fit` of
//! relay-mix-quad (Apache-2.0), but for the one change.

use comparing::row::row;
use comparing::table::Wrong;

use super::inputs::{fits, Fit};
use super::rust;

pub fn wrong() -> Wrong {
    vec![row(
        "scale, an equal limit replaces",
        fits(),
        scale,
        rust::scale,
    )]
    .into()
}

/// Wrong where a limit equals the value held: of a +0 and a -0 the earlier is to stay.
fn scale(f: &Fit) -> f32 {
    let small = 1.0e-6;
    let mut s = 1.0;
    for (b, d) in f.base().iter().zip(f.delta()) {
        let limit = if small < *d {
            (1.0 - b) / d
        } else if *d < -small {
            (b - f.floor) / -d
        } else {
            continue;
        };
        if limit <= s {
            s = limit;
        }
    }
    if s.is_finite() && 0.0 <= s {
        s
    } else {
        0.0
    }
}
