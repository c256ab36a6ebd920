//! The Rust's side, which takes four motors.

use relay_mix_quad::passed_on::scale_to_fit;

use super::inputs::Fit;

pub fn scale(f: &Fit) -> f32 {
    let (base, delta) = f.four();
    scale_to_fit(&base, &delta, f.floor)
}
