//! A model of document 01's refusal 10, which the Rust has not: it takes as many rows as outputs,
//! and any number.

use comparing::inputs::LENT;

use super::inputs::{After, Lent, MOST, MOST_LENT};
use super::rust;

/// Over 64 outputs, or rows not four numbers for each, are refused, and the outputs left as lent.
/// What is accepted the Rust answers.
pub fn mix_or_refuse(l: &Lent) -> After {
    if MOST < l.outputs || l.rows().len() != 4 * l.outputs {
        return (10, [LENT; MOST_LENT]);
    }
    rust::mix(l)
}
