//! 001's mix timed, with octo_coax's eight rows. For what stands before the Rust's function see the
//! quad's speed.rs.

use std::hint::black_box;

use relay_mix_multi::Mixer;

use comparing::timed_commands::{Asked, Commands, PART};
use comparing::timing::{pair, side, Line, Side, Timing, RUST};

use super::{ours, rust};
use crate::frames::frame::Wrench;
use crate::frames::rust::octo_coax_run;

#[inline]
pub fn timings(commands: &Commands) -> Vec<Timing> {
    let sides = [multi8(ours::footspandle_mixer_mix), rust_multi8(mixer_mix)];
    vec![Timing {
        name: "multi8",
        against: RUST,
        pair: pair(commands, PART, sides),
    }]
}

type LentMix = unsafe extern "C" fn(*const f32, usize, *const Wrench, *mut f32, usize) -> u32;

fn multi8(mix: LentMix) -> Side<Asked> {
    let mix = black_box(mix);
    let run = Line(octo_coax_run());
    side([0.0; 8], move |motors: &mut [f32; 8], c: &Asked| unsafe {
        mix(run.0.as_ptr(), 32, &c.wrench, motors.as_mut_ptr(), 8);
    })
}

type MixerMix = unsafe extern "C" fn(*const Mixer<8>, *const Wrench, *mut [f32; 8]);

fn rust_multi8(mix: MixerMix) -> Side<Asked> {
    let mix = black_box(mix);
    let mixer = Line(relay_mix_multi::octo_coax());
    side([0.0; 8], move |motors, c: &Asked| unsafe {
        mix(&mixer.0, &c.wrench, motors);
    })
}

#[inline]
unsafe extern "C" fn mixer_mix(mixer: *const Mixer<8>, w: *const Wrench, motors: *mut [f32; 8]) {
    *motors = (*mixer).mix(rust::wrench(&*w));
}
