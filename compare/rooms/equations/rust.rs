//! The Rust's side.

use relay_mix_quad::passed_on as quad;

use super::inputs::System;

pub fn det3(s: &System) -> f32 {
    quad::det3(s.rows())
}

/// Whether there is a solution, and the three numbers: +0 where there is none.
pub fn solve3(s: &System) -> (bool, [f32; 3]) {
    let x = quad::solve3(s.rows(), s.rhs);
    (x.is_some(), x.unwrap_or([0.0; 3]))
}
