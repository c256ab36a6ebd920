//! Random numbers, and the floats next to which a rule can go wrong.

/// The least float over 0, the next under 1 and the next over 1.
pub const LEAST: f32 = f32::from_bits(1);
pub const BELOW_ONE: f32 = 1.0 - f32::EPSILON / 2.0;
pub const ABOVE_ONE: f32 = 1.0 + f32::EPSILON;

/// Both zeros, the ends of the format, and the thresholds of the rules.
pub const SPECIAL: [f32; 38] = [
    0.0,
    -0.0,
    LEAST,
    -LEAST,
    f32::MIN_POSITIVE,
    -f32::MIN_POSITIVE,
    1.0e-38,
    1.0e-20,
    1.0e-6,
    -1.0e-6,
    0.001,
    0.05,
    0.125,
    0.25,
    -0.25,
    0.5,
    -0.5,
    0.75,
    BELOW_ONE,
    1.0,
    -1.0,
    ABOVE_ONE,
    1.5,
    2.0,
    -2.0,
    3.0,
    8.0,
    -8.0,
    16_777_216.0,
    1.0e6,
    1.0e20,
    1.701_411_8e38,
    -1.701_411_8e38,
    f32::MAX,
    f32::MIN,
    f32::INFINITY,
    f32::NEG_INFINITY,
    f32::NAN,
];

/// The float k places over x, both zeros being one place, or x itself where k is 0.
pub fn stepped(x: f32, k: i32) -> f32 {
    if k == 0 {
        return x;
    }
    let fold = |i: i32| if i < 0 { i32::MIN.wrapping_sub(i) } else { i };
    f32::from_bits(fold(fold(x.to_bits() as i32).wrapping_add(k)) as u32)
}

/// The random numbers of one case: splitmix64.
pub struct Random(u64);

fn scrambled(x: u64) -> u64 {
    let x = (x ^ (x >> 30)).wrapping_mul(0xbf58_476d_1ce4_e5b9);
    let x = (x ^ (x >> 27)).wrapping_mul(0x94d0_49bb_1331_11eb);
    x ^ (x >> 31)
}

impl Random {
    pub fn new(seed: u64, n: u64) -> Random {
        Random(scrambled(n.wrapping_add(scrambled(seed))))
    }

    /// Other numbers of the same case, which take none of those to come.
    pub fn aside(&self) -> Random {
        Random(scrambled(!self.0))
    }

    #[inline]
    fn next(&mut self) -> u64 {
        self.0 = self.0.wrapping_add(0x9e37_79b9_7f4a_7c15);
        scrambled(self.0)
    }

    /// A number under k.
    pub fn below(&mut self, k: u64) -> u64 {
        ((self.next() >> 32) * k) >> 32
    }

    /// The same, as a place in a list.
    pub fn under(&mut self, k: usize) -> usize {
        self.below(k as u64) as usize
    }

    pub fn one_of<T: Copy>(&mut self, from: &[T]) -> T {
        from[self.under(from.len())]
    }

    /// x, or a float at most four places from it.
    pub fn near(&mut self, x: f32) -> f32 {
        stepped(x, self.below(9) as i32 - 4)
    }

    /// Any 32 bits.
    pub fn word(&mut self) -> u32 {
        self.next() as u32
    }

    /// A float of any bits.
    pub fn bits(&mut self) -> f32 {
        f32::from_bits(self.word())
    }

    /// From 0 up to 1, the end left out.
    pub fn unit(&mut self) -> f32 {
        (self.next() >> 40) as f32 / 16_777_216.0
    }

    /// From -1 to 1: a thousandth, or any.
    pub fn flight(&mut self) -> f32 {
        match self.below(2) {
            0 => (self.below(2001) as f32 - 1000.0) / 1000.0,
            _ => 2.0 * self.unit() - 1.0,
        }
    }

    /// A number of any kind.
    pub fn any(&mut self) -> f32 {
        match self.below(8) {
            0..=2 => self.one_of(&SPECIAL),
            3 => {
                let x = self.one_of(&SPECIAL);
                self.near(x)
            }
            4 => self.bits(),
            5 => self.unit(),
            _ => self.flight(),
        }
    }
}
