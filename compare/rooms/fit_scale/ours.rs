//! Ours, as the crate `probes` exports it: a slice passes as a pointer and then a length.

use super::inputs::Fit;

extern "C" {
    fn probe_scale(
        base: *const f32,
        base_length: usize,
        delta: *const f32,
        delta_length: usize,
        floor: f32,
    ) -> f32;
}

#[inline]
pub fn scale(f: &Fit) -> f32 {
    let (base, delta) = (f.base(), f.delta());
    unsafe {
        probe_scale(
            base.as_ptr(),
            base.len(),
            delta.as_ptr(),
            delta.len(),
            f.floor,
        )
    }
}
