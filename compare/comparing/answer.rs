//! Answers, which are compared by bits.

use crate::hex::Hex;

/// An answer. Two are the same if their bits are, and a NaN is the same as any NaN.
pub trait Answer: Hex {
    fn same(&self, other: &Self) -> bool;

    /// Ours and the Rust's, to be shown where they differ.
    fn both(&self, other: &Self) -> String {
        format!("ours {}, Rust {}", self.hex(), other.hex())
    }
}

/// The bits, but for a NaN, whose bits are to be those of the quiet NaN.
pub fn bits(&x: &f32) -> u32 {
    if x.is_nan() {
        0x7fc0_0000
    } else {
        x.to_bits()
    }
}

impl Answer for f32 {
    #[inline]
    fn same(&self, other: &f32) -> bool {
        self.to_bits() == other.to_bits() || self.is_nan() && other.is_nan()
    }
}

/// What is the same where it is equal.
macro_rules! equal {
    ($($answer:ty)*) => { $(
        impl Answer for $answer {
            #[inline]
            fn same(&self, other: &$answer) -> bool {
                self == other
            }
        }
    )* };
}

equal!(u32 u16 usize bool String);

impl<const N: usize> Answer for [u8; N] {
    #[inline]
    fn same(&self, other: &[u8; N]) -> bool {
        self == other
    }
}

impl<A: Answer, const N: usize> Answer for [A; N] {
    #[inline]
    fn same(&self, other: &[A; N]) -> bool {
        self.iter().zip(other).all(|(a, b)| a.same(b))
    }
}

impl<A: Answer, B: Answer> Answer for (A, B) {
    #[inline]
    fn same(&self, other: &(A, B)) -> bool {
        self.0.same(&other.0) && self.1.same(&other.1)
    }
}
