//! The module `thrust_floor` of our relay-mix-multi. The Rust has none, but its quad has the rule
//! for four rotors: ours is held to that where the rows are the quad's, and the functions of the
//! two frames to ours of their rows.

use ours_multi::thrust_floor::{self, Floored};
use ours_multi::{hex_x, octo_coax, Mixer, Wrench};

use comparing::inputs::{seeded, Inputs};
use comparing::random::Random;
use comparing::row::Row;
use rooms::quad::call::{Call, Mix};
use rooms::quad::inputs::{call, COMMAND_KINDS};

use crate::compared::{compared, FEWER, MANY, WHOLE};
use crate::mixer_n::rust::quad_x;
use crate::quad::rust::{after, state};

/// How many cases the row of no rotors has.
const NO_ROTORS: u64 = 1 << 10;

/// The motors, and the scale.
type Answered<const M: usize> = ([f32; M], f32);

pub fn rows(wrong: bool) -> Vec<Row> {
    let mut rows = vec![
        quad_row::<4>(wrong, MANY),
        quad_row::<6>(wrong, MANY),
        quad_row::<8>(wrong, MANY),
        quad_row::<64>(wrong, FEWER),
        compared(
            wrong,
            "thrust_floor::mix::<0>",
            calls(NO_ROTORS),
            |c| answered(thrust_floor::mix(&Mixer::new([]), wrench(c), c.floor)),
            |_| ([], 1.0),
        ),
        compared(
            wrong,
            "thrust_floor::hex_x",
            calls(MANY),
            |c| answered(thrust_floor::hex_x(wrench(c), c.floor)),
            |c| answered(thrust_floor::mix(&hex_x(), wrench(c), c.floor)),
        ),
        compared(
            wrong,
            "thrust_floor::octo_coax",
            calls(MANY),
            |c| answered(thrust_floor::octo_coax(wrench(c), c.floor)),
            |c| answered(thrust_floor::mix(&octo_coax(), wrench(c), c.floor)),
        ),
    ];
    if wrong {
        rows.extend(slips());
    }
    rows
}

// ---- commands

fn calls(cases: u64) -> Inputs<impl Fn(u64) -> Call> {
    const SEED: u64 = 33;
    seeded(COMMAND_KINDS, SEED, cases, |n| {
        call(&mut Random::new(SEED, n), Mix::ThrustFloor)
    })
}

fn wrench(call: &Call) -> Wrench {
    let [roll, pitch, yaw] = call.torque;
    Wrench {
        thrust: call.thrust,
        roll,
        pitch,
        yaw,
    }
}

fn answered<const M: usize>(floored: Floored<M>) -> Answered<M> {
    (floored.motors, floored.scale)
}

// ---- frames of the quad's rows

/// A command, and what stands in the rows in the place of their thrust.
type Quad<const M: usize> = (Call, [f32; M]);

/// Any numbers stand in the thrust column: it is not read.
fn quads<const M: usize>(cases: u64) -> Inputs<impl Fn(u64) -> Quad<M>> {
    const SEED: u64 = 34;
    let kinds = format!("the quad's rows again and again, any thrust in them; {COMMAND_KINDS}");
    seeded(&kinds, SEED, cases, |n| {
        let mut random = Random::new(SEED, n);
        let call = call(&mut random, Mix::ThrustFloor);
        (call, [(); M].map(|_| random.any()))
    })
}

fn quad_mixer<const M: usize>(thrusts: &[f32; M]) -> Mixer<M> {
    let (_, quad) = quad_x();
    Mixer::new(std::array::from_fn(|i| {
        let [_, roll, pitch, yaw] = quad[i % 4];
        [thrusts[i], roll, pitch, yaw]
    }))
}

fn ours<const M: usize>((call, thrusts): &Quad<M>) -> Answered<M> {
    let mixer = quad_mixer(thrusts);
    answered(thrust_floor::mix(&mixer, wrench(call), call.floor))
}

/// The Rust's quad. Rotors that have the same row have the same motor, and put the same limit on
/// the scale.
fn quads_own<const M: usize>((call, _): &Quad<M>) -> Answered<M> {
    let [a, b, c, d, scale, ..] = state(&after(&[*call]));
    (std::array::from_fn(|i| [a, b, c, d][i % 4]), scale)
}

fn quad_row<const M: usize>(wrong: bool, cases: u64) -> Row {
    let name = format!("thrust_floor::mix::<{M}>, the quad's rows");
    compared(wrong, name, quads::<M>(cases), ours, quads_own)
}

// ---- wrong on purpose

/// Slips that a binding can make here.
fn slips() -> Vec<Row> {
    vec![
        compared(
            WHOLE,
            "thrust and floor exchanged",
            quads::<4>(MANY),
            |&(call, thrusts)| {
                let exchanged = Call {
                    thrust: call.floor,
                    floor: call.thrust,
                    ..call
                };
                ours(&(exchanged, thrusts))
            },
            quads_own,
        ),
        compared(
            WHOLE,
            "the scale left as it was",
            quads::<4>(MANY),
            |input| (ours(input).0, 1.0),
            quads_own,
        ),
    ]
}
