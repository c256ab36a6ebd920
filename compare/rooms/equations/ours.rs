//! Ours, as the crate `probes` exports it.

use comparing::inputs::LENT;

use super::inputs::System;

extern "C" {
    fn probe_det3(a: *const [f32; 9]) -> f32;
    fn probe_solve3(a: *const [f32; 9], rhs: *const [f32; 3], x: *mut [f32; 3]) -> bool;
}

#[inline]
pub fn det3(s: &System) -> f32 {
    unsafe { probe_det3(&s.a) }
}

/// Whether there is a solution, and the three numbers.
#[inline]
pub fn solve3(s: &System) -> (bool, [f32; 3]) {
    let mut x = [LENT; 3];
    let found = unsafe { probe_solve3(&s.a, &s.rhs, &mut x) };
    (found, x)
}
