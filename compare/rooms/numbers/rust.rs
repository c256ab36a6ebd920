//! The Rust's side, where it takes more than a call.

use relay_mix_quad::passed_on as quad;

/// The limited thrust or floor.
pub fn limit(&x: &f32) -> f32 {
    quad::clamp01(quad::sanitise(x))
}

pub fn clamp_floor(&(x, lo): &(f32, f32)) -> f32 {
    quad::clamp_floor(x, lo)
}
