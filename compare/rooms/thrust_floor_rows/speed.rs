//! Thrust-floor for eight rotors timed: over lent rows, which are octo_coax's, and octo_coax's own.
//! The Rust has none for so many rotors, so they are timed against our quad's, for half as many
//! motors; what they have to answer is the model.

use std::hint::black_box;

use comparing::timed_commands::{Asked, Commands, PART};
use comparing::timing::{side, unlike, Against, Line, Side, Timing};

use super::{model, ours};
use crate::frames::frame::Wrench;
use crate::frames::rust::octo_coax_run;
use crate::quad::speed::our_thrust_floor;

/// Our quad's thrust-floor, and how often its time this may take.
const QUAD: Against = Against {
    other: "quad",
    by: "times",
    limit: Some(3.0),
};

pub fn timings(commands: &Commands) -> Vec<Timing> {
    let timing = |name, ours| Timing {
        name,
        against: QUAD,
        pair: unlike(commands, PART, [ours, our_thrust_floor()], model_octo()),
    };
    vec![
        timing(
            "thrust_floor8",
            thrust_floor8(ours::footspandle_mixer_mix_thrust_floor),
        ),
        timing(
            "thrust_floor_octo",
            thrust_floor_octo(ours::footspandle_mix_thrust_floor_octo_coax),
        ),
    ]
}

/// Eight motors, and then the scale.
type Scaled8 = [f32; 9];

type LentThrustFloor =
    unsafe extern "C" fn(*const f32, usize, *const Wrench, f32, *mut f32, usize, *mut f32) -> u32;

fn thrust_floor8(mix: LentThrustFloor) -> Side<Asked> {
    let mix = black_box(mix);
    let run = Line(octo_coax_run());
    side([0.0; 9], move |memory: &mut Scaled8, c: &Asked| unsafe {
        let [motors @ .., scale] = memory;
        let (rows, to) = (run.0.as_ptr(), motors.as_mut_ptr());
        mix(rows, 32, &c.wrench, c.floor, to, 8, scale);
    })
}

type OctoThrustFloor = unsafe extern "C" fn(*const Wrench, f32, *mut [f32; 8]) -> f32;

fn thrust_floor_octo(mix: OctoThrustFloor) -> Side<Asked> {
    let mix = black_box(mix);
    side([0.0; 9], move |memory: &mut Scaled8, c: &Asked| unsafe {
        let [motors @ .., scale] = memory;
        *scale = mix(&c.wrench, c.floor, motors);
    })
}

/// What the two have to answer.
fn model_octo() -> Side<Asked> {
    side([0.0; 9], |memory: &mut Scaled8, c: &Asked| {
        let [motors @ .., scale] = memory;
        (*motors, *scale) = model::octo_coax_thrust_floor(&(c.wrench, c.floor));
    })
}
