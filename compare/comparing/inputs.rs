//! The inputs: how many there are, of which kinds, and input n. Input n depends on n and the seed
//! alone, so a run is the same on any number of threads, and a short run is the start of a long
//! one.

/// The inputs of a row.
pub struct Inputs<M> {
    pub kinds: String,
    pub cases: u64,
    pub make: M,
}

pub fn seeded<M>(kinds: &str, seed: u64, cases: u64, make: M) -> Inputs<M> {
    Inputs {
        kinds: format!("{kinds}; seed {seed}"),
        cases,
        make,
    }
}

/// These and no others.
pub fn chosen<T: Copy + Sync>(kinds: &str, all: &'static [T]) -> Inputs<impl Fn(u64) -> T> {
    Inputs {
        kinds: kinds.into(),
        cases: all.len() as u64,
        make: |n| all[n as usize],
    }
}

impl<M> Inputs<M> {
    /// The first so many cases.
    pub fn first(self, cases: u64) -> Inputs<M> {
        Inputs { cases, ..self }
    }

    /// The same cases, and of each the part that is asked for.
    pub fn map<I, J>(self, part: impl Fn(I) -> J) -> Inputs<impl Fn(u64) -> J>
    where
        M: Fn(u64) -> I,
    {
        let make = self.make;
        Inputs {
            kinds: self.kinds,
            cases: self.cases,
            make: move |n| part(make(n)),
        }
    }
}

/// The one case of a function that takes nothing.
pub fn once() -> Inputs<impl Fn(u64) -> [f32; 0]> {
    Inputs {
        kinds: "no input".into(),
        cases: 1,
        make: |_| [],
    }
}

/// What stands in a lent array before the call: a number that no input leads to, so that one which
/// is left as lent shows.
pub const LENT: f32 = f32::from_bits(0x5aa5_5aa5);

// ---- every pattern

/// How many patterns a number of 32 bits has.
const PATTERNS: u64 = 1 << 32;

/// Pattern n. The ten lowest bits change slowest, so that the first 1024th of a run has every
/// sign, every exponent and the thirteen upper bits of the fraction.
#[inline]
fn pattern(n: u64) -> u32 {
    (n as u32).rotate_left(10)
}

/// All patterns, as whole numbers.
pub fn every_pattern() -> Inputs<impl Fn(u64) -> u32> {
    Inputs {
        kinds: "all 2^32 patterns".into(),
        cases: PATTERNS,
        make: pattern,
    }
}

/// All patterns, as floats.
pub fn every_float() -> Inputs<impl Fn(u64) -> f32> {
    Inputs {
        kinds: "all 2^32 patterns".into(),
        cases: PATTERNS,
        make: |n| f32::from_bits(pattern(n)),
    }
}
