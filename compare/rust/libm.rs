//! Stands in for the crate `libm`, so that relay-math builds with no registry at hand. No function
//! that is compared reaches these, so they may answer anything: they answer 0.

#![no_std]

pub fn sqrtf(_: f32) -> f32 {
    0.0
}

pub fn atan2f(_: f32, _: f32) -> f32 {
    0.0
}

pub fn acosf(_: f32) -> f32 {
    0.0
}

pub fn fabsf(_: f32) -> f32 {
    0.0
}

pub fn remainderf(_: f32, _: f32) -> f32 {
    0.0
}
