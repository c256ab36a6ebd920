//! Special values: tables of the numbers at the thresholds of the rules, and how all of their
//! combinations are walked.

use crate::inputs::Inputs;
use crate::random::{ABOVE_ONE, BELOW_ONE, LEAST};

// ---- tables

/// Torques, and thrusts that are not limited: both zeros, the ends of the format, two NaNs, and
/// 1.0e-6, 1, 8, 2^23 and 2^24 with their neighbours. A torque of 0.5e-6 on one axis has a spread
/// of 1.0e-6.
pub const TORQUES: [f32; 48] = [
    0.0,
    -0.0,
    LEAST,
    -LEAST,
    1.0e-40,
    f32::MIN_POSITIVE,
    -f32::MIN_POSITIVE,
    0.5e-6,
    BELOW_SMALL,
    1.0e-6,
    ABOVE_SMALL,
    -BELOW_SMALL,
    -1.0e-6,
    -ABOVE_SMALL,
    0.125,
    0.25,
    -0.25,
    0.5,
    -0.5,
    0.75,
    BELOW_ONE,
    1.0,
    ABOVE_ONE,
    -BELOW_ONE,
    -1.0,
    -ABOVE_ONE,
    -2.0,
    BELOW_EIGHT,
    8.0,
    ABOVE_EIGHT,
    -8.0,
    -ABOVE_EIGHT,
    8_388_607.5,
    8_388_608.0,
    8_388_609.0,
    16_777_215.0,
    16_777_216.0,
    16_777_218.0,
    -16_777_216.0,
    1.0e20,
    TOP,
    -TOP,
    f32::MAX,
    f32::MIN,
    f32::INFINITY,
    f32::NEG_INFINITY,
    f32::NAN,
    SIGNALLING,
];

/// Thrusts and floors that are limited to 0..1.
pub const LIMITED: [f32; 24] = [
    0.0,
    -0.0,
    LEAST,
    -LEAST,
    f32::MIN_POSITIVE,
    1.0e-6,
    -1.0e-6,
    0.05,
    0.125,
    0.25,
    0.3,
    1.0 / 3.0,
    0.5,
    0.75,
    BELOW_ONE,
    1.0,
    ABOVE_ONE,
    -1.0,
    2.0,
    f32::MAX,
    f32::MIN,
    f32::INFINITY,
    f32::NEG_INFINITY,
    f32::NAN,
];

const BELOW_SMALL: f32 = f32::from_bits(1.0e-6_f32.to_bits() - 1);
const ABOVE_SMALL: f32 = f32::from_bits(1.0e-6_f32.to_bits() + 1);
const BELOW_EIGHT: f32 = f32::from_bits(8.0_f32.to_bits() - 1);
const ABOVE_EIGHT: f32 = f32::from_bits(8.0_f32.to_bits() + 1);

/// 2^127.
pub const TOP: f32 = f32::from_bits(0x7f00_0000);

/// A NaN that is not quiet, and negative.
const SIGNALLING: f32 = f32::from_bits(0xff80_0001);

// ---- all of them

/// Choices from tables, one after another, by the digits of a number.
pub struct Digits(u64);

impl Digits {
    pub fn next<T: Copy>(&mut self, from: &[T]) -> T {
        let size = from.len() as u64;
        let digit = self.0 % size;
        self.0 /= size;
        from[digit as usize]
    }
}

/// Of so many cases, number n in steps of a prime that divides no count of cases here: each once,
/// and a short run has every value of every table.
pub fn strided(n: u64, cases: u64) -> Digits {
    Digits(n * 1_000_003 % cases)
}

/// Every four special values, which serve as what is named.
pub fn special_fours(named: &str) -> Inputs<impl Fn(u64) -> [f32; 4]> {
    const CASES: u64 = (TORQUES.len() as u64).pow(4);
    Inputs {
        kinds: format!("all of 48^4 {named}"),
        cases: CASES,
        make: |n| {
            let mut digits = strided(n, CASES);
            [(); 4].map(|_| digits.next(&TORQUES))
        },
    }
}
