//! Bases and deltas, with limits of every kind.

use comparing::hex::Hex;
use comparing::inputs::{seeded, Inputs};
use comparing::random::{Random, SPECIAL};

/// Bases and deltas of up to eight motors, how many of each are lent, and a floor.
pub struct Fit {
    base: [f32; 8],
    delta: [f32; 8],
    bases: usize,
    deltas: usize,
    pub floor: f32,
}

impl Fit {
    pub fn base(&self) -> &[f32] {
        &self.base[..self.bases]
    }

    pub fn delta(&self) -> &[f32] {
        &self.delta[..self.deltas]
    }

    /// The motors that have a base and a delta, at most four, as the Rust takes them: a motor of
    /// delta 0 puts no limit.
    pub fn four(&self) -> ([f32; 4], [f32; 4]) {
        let (mut base, mut delta) = ([0.0; 4], [0.0; 4]);
        let walked = self.bases.min(self.deltas).min(4);
        base[..walked].copy_from_slice(&self.base[..walked]);
        delta[..walked].copy_from_slice(&self.delta[..walked]);
        (base, delta)
    }
}

impl Hex for Fit {
    fn hex(&self) -> String {
        let parts = [self.base().hex(), self.delta().hex(), self.floor.hex()];
        parts.join(" ")
    }
}

/// What a delta may be of the room that a base leaves: a limit is then near 1 or near another
/// simple fraction.
pub const PARTS: [f32; 6] = [1.0, 1.0, 1.0, 2.0, 4.0, 0.5];

/// A delta near such a part of the room over or under a base, or near small.
pub fn delta_at_the_limit(random: &mut Random, base: f32, floor: f32, part: f32) -> f32 {
    let delta = match random.below(5) {
        0 | 1 => (1.0 - base) * part,
        2 | 3 => (floor - base) * part,
        _ => random.one_of(&[1.0e-6, -1.0e-6]),
    };
    random.near(delta)
}

fn fit(random: &mut Random, bases: usize, deltas: usize) -> Fit {
    let (mut base, mut delta) = ([0.0; 8], [0.0; 8]);
    let kind = random.below(5);
    let floor = match kind {
        0 => random.any(),
        1 => random.one_of(&SPECIAL),
        2 => random.bits(),
        _ => random.one_of(&[0.0, -0.0, 0.05, 0.125, 0.25, 1.0]),
    };
    let thrust = random.unit();
    for i in 0..bases.max(deltas) {
        (base[i], delta[i]) = match kind {
            0 => (random.any(), random.any()),
            1 => (random.one_of(&SPECIAL), random.one_of(&SPECIAL)),
            2 => (random.bits(), random.bits()),
            3 => {
                let near = [0.0, -0.0, 0.5, 1.0, floor, thrust, 1.0 - floor];
                let b = random.one_of(&near);
                let b = random.near(b);
                let part = random.one_of(&PARTS);
                (b, delta_at_the_limit(random, b, floor, part))
            }
            _ => (thrust, random.flight() + random.flight()),
        };
    }
    Fit {
        base,
        delta,
        bases,
        deltas,
        floor,
    }
}

const FIT_KINDS: &str = "any mixture, special values, any bits, limits near 1, flight";

/// Four motors.
pub fn fits() -> Inputs<impl Fn(u64) -> Fit> {
    const SEED: u64 = 1;
    seeded(FIT_KINDS, SEED, 1 << 28, |n| {
        fit(&mut Random::new(SEED, n), 4, 4)
    })
}

/// Up to four motors on the shorter side, and up to four more on the longer, which are not walked.
pub fn fits_of_any_length() -> Inputs<impl Fn(u64) -> Fit> {
    const SEED: u64 = 2;
    let kinds = "0 to 4 motors, up to 4 more bases or deltas; kinds as above";
    seeded(kinds, SEED, 1 << 26, |n| {
        let mut random = Random::new(SEED, n);
        let walked = random.below(5) as usize;
        let more = random.below(5) as usize;
        let (bases, deltas) = match random.below(2) {
            0 => (walked + more, walked),
            _ => (walked, walked + more),
        };
        fit(&mut random, bases, deltas)
    })
}
