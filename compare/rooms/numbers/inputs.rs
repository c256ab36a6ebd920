//! Numbers with floors. Numbers by themselves are every pattern.

use comparing::inputs::{every_float, Inputs};
use comparing::random::{ABOVE_ONE, BELOW_ONE, LEAST};

/// The floors at which the floor clamp is compared. The clamp takes any bits.
pub const FLOORS: [f32; 16] = [
    0.0,
    -0.0,
    LEAST,
    1.0e-6,
    0.05,
    0.25,
    0.5,
    BELOW_ONE,
    1.0,
    ABOVE_ONE,
    -1.0,
    2.0,
    f32::NAN,
    f32::INFINITY,
    f32::NEG_INFINITY,
    f32::MAX,
];

/// All patterns with each of the sixteen floors.
pub fn every_float_and_floor() -> Inputs<impl Fn(u64) -> (f32, f32)> {
    let Inputs { kinds, cases, make } = every_float();
    Inputs {
        kinds: format!("{kinds} at 16 floors"),
        cases: cases * 16,
        make: move |n| (make(n / 16), FLOORS[(n % 16) as usize]),
    }
}
