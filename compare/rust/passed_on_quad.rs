/// Appended by compare/rust/copy.sh to a copy of relay-mix-quad, and no part of that crate: the
/// private functions that are compared, passed on as they are, a state of any bits, and a frame's
/// rows.
pub mod passed_on {
    #[inline]
    pub fn mixer(last_motors: [f32; 4], last_torque_scale: f32) -> super::QuadMixer {
        super::QuadMixer {
            last_motors,
            last_torque_scale,
        }
    }

    #[inline]
    pub fn sanitise(x: f32) -> f32 {
        super::sanitise(x)
    }

    #[inline]
    pub fn clamp01(x: f32) -> f32 {
        super::clamp01(x)
    }

    #[inline]
    pub fn clamp_floor(x: f32, lo: f32) -> f32 {
        super::clamp_floor(x, lo)
    }

    #[inline]
    pub fn libm_fabsf(x: f32) -> f32 {
        super::libm_fabsf(x)
    }

    #[inline]
    pub fn det3(a: [[f32; 3]; 3]) -> f32 {
        super::det3(a)
    }

    #[inline]
    pub fn solve3(a: [[f32; 3]; 3], rhs: [f32; 3]) -> Option<[f32; 3]> {
        super::solve3(a, rhs)
    }

    #[inline]
    pub fn scale_to_fit(base: &[f32; 4], delta: &[f32; 4], floor: f32) -> f32 {
        super::scale_to_fit(base, delta, floor)
    }

    #[inline]
    pub fn frame_rows(frame: &super::MixerN) -> [[f32; 4]; super::MAX_ROTORS] {
        frame.mix
    }
}
