//! Bytes, and places in and past them.

use comparing::hex::Hex;
use comparing::inputs::{seeded, Inputs};
use comparing::random::Random;

/// Sixteen bytes, of which up to twelve are lent, a place in or past them, and a number to write.
pub struct Bytes {
    pub all: [u8; 16],
    pub lent: usize,
    pub at: usize,
    pub value: u32,
}

impl Bytes {
    pub fn part(&self) -> &[u8] {
        &self.all[..self.lent]
    }
}

impl Hex for Bytes {
    fn hex(&self) -> String {
        let bytes = self.part().hex();
        format!("[{bytes}] place {:x} value {:08x}", self.at, self.value)
    }
}

/// Random bytes at every length from 0 to 12 and every place up to 16, and at far places.
pub fn bytes() -> Inputs<impl Fn(u64) -> Bytes> {
    const SEED: u64 = 5;
    const FAR: [usize; 7] = [
        1 << 16,
        1 << 32,
        1 << 63,
        usize::MAX - 3,
        usize::MAX - 2,
        usize::MAX - 1,
        usize::MAX,
    ];
    let kinds = "0 to 12 random bytes, places 0 to 16 and 7 far ones";
    seeded(kinds, SEED, 1 << 20, |n| {
        let mut random = Random::new(SEED, n);
        let place = (n / 13 % 24) as usize;
        Bytes {
            all: [(); 16].map(|_| random.word() as u8),
            lent: (n % 13) as usize,
            at: if place < 17 { place } else { FAR[place - 17] },
            value: random.word(),
        }
    })
}
