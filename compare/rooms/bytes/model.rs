//! A model of reading and writing.

use super::inputs::Bytes;

/// The bytes from a place on, 0 past the end of the part.
pub fn bytes_at<const N: usize>(b: &Bytes) -> [u8; N] {
    let mut found = [0; N];
    for (to, from) in found.iter_mut().zip(b.part().iter().skip(b.at)) {
        *to = *from;
    }
    found
}

/// Writes the bytes at a place, all or none.
pub fn put(out: &mut [u8], at: usize, bytes: &[u8]) {
    let part = at
        .checked_add(bytes.len())
        .and_then(|end| out.get_mut(at..end));
    if let Some(part) = part {
        part.copy_from_slice(bytes);
    }
}
