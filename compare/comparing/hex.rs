//! What can be shown as its bits, in hex.
//!
//! It is inlined into the comparing loop, which would otherwise keep every input in memory, to be
//! shown.

pub trait Hex {
    fn hex(&self) -> String;
}

impl Hex for f32 {
    #[inline]
    fn hex(&self) -> String {
        format!("{:08x}", self.to_bits())
    }
}

impl Hex for u32 {
    #[inline]
    fn hex(&self) -> String {
        format!("{self:08x}")
    }
}

impl Hex for u16 {
    #[inline]
    fn hex(&self) -> String {
        format!("{self:04x}")
    }
}

impl Hex for usize {
    #[inline]
    fn hex(&self) -> String {
        format!("{self:x}")
    }
}

impl Hex for bool {
    #[inline]
    fn hex(&self) -> String {
        self.to_string()
    }
}

/// A text is shown as it is.
impl Hex for String {
    #[inline]
    fn hex(&self) -> String {
        format!("'{self}'")
    }
}

impl Hex for [u8] {
    #[inline]
    fn hex(&self) -> String {
        self.iter().map(|b| format!("{b:02x}")).collect()
    }
}

impl<const N: usize> Hex for [u8; N] {
    #[inline]
    fn hex(&self) -> String {
        self[..].hex()
    }
}

impl<A: Hex> Hex for [A] {
    #[inline]
    fn hex(&self) -> String {
        let all: Vec<String> = self.iter().map(Hex::hex).collect();
        format!("[{}]", all.join(" "))
    }
}

impl<A: Hex, const N: usize> Hex for [A; N] {
    #[inline]
    fn hex(&self) -> String {
        self[..].hex()
    }
}

impl<A: Hex, B: Hex> Hex for (A, B) {
    #[inline]
    fn hex(&self) -> String {
        format!("{} {}", self.0.hex(), self.1.hex())
    }
}
