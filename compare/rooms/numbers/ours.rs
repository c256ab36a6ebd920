//! Ours: the inner functions as the crate `probes` exports them, and 001's as `exported` does.
//! The gate holds the declarations here, and in the other rooms, to the Rattle source.

extern "C" {
    fn probe_is_finite(x: f32) -> bool;
    fn probe_is_nan(x: f32) -> bool;
    fn probe_sanitise(x: f32) -> f32;
    fn probe_limit(x: f32) -> f32;
    fn probe_clamp(x: f32, lo: f32, hi: f32) -> f32;
    fn probe_clamp_floor(x: f32, lo: f32) -> f32;
    fn probe_float_of(bits: u32) -> f32;
    fn probe_bits_of(x: f32) -> u32;

    fn footspandle_clamp01(x: f32) -> f32;
}

#[inline]
pub fn is_finite(&x: &f32) -> bool {
    unsafe { probe_is_finite(x) }
}

#[inline]
pub fn is_nan(&x: &f32) -> bool {
    unsafe { probe_is_nan(x) }
}

#[inline]
pub fn sanitise(&x: &f32) -> f32 {
    unsafe { probe_sanitise(x) }
}

#[inline]
pub fn limit(&x: &f32) -> f32 {
    unsafe { probe_limit(x) }
}

#[inline]
pub fn clamp(x: f32, lo: f32, hi: f32) -> f32 {
    unsafe { probe_clamp(x, lo, hi) }
}

#[inline]
pub fn clamp_floor(&(x, lo): &(f32, f32)) -> f32 {
    unsafe { probe_clamp_floor(x, lo) }
}

#[inline]
pub fn float_of(&bits: &u32) -> f32 {
    unsafe { probe_float_of(bits) }
}

#[inline]
pub fn bits_of(&x: &f32) -> u32 {
    unsafe { probe_bits_of(x) }
}

#[inline]
pub fn clamp01(&x: &f32) -> f32 {
    unsafe { footspandle_clamp01(x) }
}
