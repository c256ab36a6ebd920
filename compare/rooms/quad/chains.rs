//! Calls one after another on one state, of any of the five mixes.

use comparing::hex::Hex;
use comparing::inputs::{seeded, Inputs};
use comparing::random::Random;

use super::call::{Call, State, MIXES};
use super::inputs::{call, state};

/// How many calls a chain has.
pub const CALLS: usize = 8;

pub struct Chain {
    pub start: State,
    pub calls: [Call; CALLS],
}

impl Hex for Chain {
    fn hex(&self) -> String {
        format!("{} {}", self.start.hex(), self.calls.hex())
    }
}

/// Chains from states of any kind. Each call is of any mix.
pub fn chains() -> Inputs<impl Fn(u64) -> Chain> {
    const SEED: u64 = 12;
    let kinds = "8 calls of any mixes on one state; kinds as above";
    seeded(kinds, SEED, 1 << 25, |n| {
        let mut random = Random::new(SEED, n);
        Chain {
            start: state(&mut random),
            calls: [(); CALLS].map(|_| {
                let mix = random.one_of(&MIXES);
                call(&mut random, mix)
            }),
        }
    })
}
