//! `MixerN`'s mix timed, with octo_coax's eight rows. For what stands before the Rust's function
//! see the quad's speed.rs.

use std::hint::black_box;

use relay_mix_quad::MixerN;

use comparing::timed_commands::{Asked, Commands, PART};
use comparing::timing::{pair, side, Line, Side, Timing, RUST};

use super::frame::Frame;
use super::{ours, rust};

pub fn timings(commands: &Commands) -> Vec<Timing> {
    let sides = [
        mixer_n(ours::footspandle_mixer_n_mix),
        rust_mixer_n(frame_mix),
    ];
    vec![Timing {
        name: "mixer_n",
        against: RUST,
        pair: pair(commands, PART, sides),
    }]
}

type MixerNMix = unsafe extern "C" fn(*const [f32; 32], usize, *const [f32; 3], f32, *mut [f32; 8]);

fn mixer_n(mix: MixerNMix) -> Side<Asked> {
    let mix = black_box(mix);
    let run = Line(rust::octo_coax_run());
    side([0.0; 8], move |motors, c: &Asked| unsafe {
        mix(&run.0, 8, c.torque(), c.thrust(), motors);
    })
}

type FrameMix = unsafe extern "C" fn(*const MixerN, *const [f32; 3], f32, *mut [f32; 8]);

fn rust_mixer_n(mix: FrameMix) -> Side<Asked> {
    let mix = black_box(mix);
    let run = rust::octo_coax_run();
    let frame = Line(rust::frame(&Frame { run, count: 8 }));
    side([0.0; 8], move |motors, c: &Asked| unsafe {
        mix(&frame.0, c.torque(), c.thrust(), motors);
    })
}

unsafe extern "C" fn frame_mix(
    frame: *const MixerN,
    torque: *const [f32; 3],
    thrust: f32,
    motors: *mut [f32; 8],
) {
    *motors = (*frame).mix(*torque, thrust);
}
