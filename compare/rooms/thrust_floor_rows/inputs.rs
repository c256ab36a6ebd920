//! Rows and a wrench as 001's mix takes them, and a floor; and how thrust-floor over rows is
//! called.

use comparing::inputs::{seeded, Inputs, LENT};
use comparing::random::Random;

use crate::fit_scale::inputs::{delta_at_the_limit, PARTS};
use crate::frames::frame::Wrench;
use crate::frames::inputs::{fill_rotors, wrench_and_floor};
use crate::frames::rust::quad_x;
use crate::quad::call::{Call, Mix, State};
use crate::quad::inputs::COMMAND_KINDS;
use crate::quad::special::special_calls;
use crate::rows::inputs::{
    at_any_length, floored_of, lent_kinds, After, Lent, Made, MOST, MOST_LENT,
};

/// What is lent to a call, and the floor.
pub type Floored = (Lent, f32);

/// The number and the outputs after a call, and the scale, which is lent too.
pub type Scaled = (After, f32);

/// What a call leaves in what is lent to it. The function takes rows, wrench and floor, then the
/// outputs and the scale, and answers 0 or 10.
pub fn scaled(
    mix: impl Fn(&[f32], &Wrench, f32, &mut [f32], &mut f32) -> u32,
    (lent, floor): &Floored,
) -> Scaled {
    let (mut out, mut scale) = ([LENT; MOST_LENT], LENT);
    let part = &mut out[..lent.outputs];
    let number = mix(lent.rows(), &lent.wrench, *floor, part, &mut scale);
    ((number, out), scale)
}

// ---- rows of all kinds

/// The numbers of outputs that every second case has.
const OFTEN: [usize; 5] = [0, 4, 6, 8, MOST];

/// A number of outputs that is accepted.
fn outputs(n: u64) -> usize {
    let turn = n as usize / 2;
    match n % 2 {
        0 => OFTEN[turn % OFTEN.len()],
        _ => turn % (MOST + 1),
    }
}

/// Four numbers for each output.
fn at_every_length(
    kinds: &str,
    seed: u64,
    cases: u64,
    made: Made<Floored>,
) -> Inputs<impl Fn(u64) -> Floored> {
    let kinds = format!("0 to 64 outputs, 0, 4, 6, 8 and 64 more often; {kinds}");
    seeded(&kinds, seed, cases, move |n| {
        let outputs = outputs(n);
        made(&mut Random::new(seed, n), 4 * outputs, outputs)
    })
}

pub fn floored_rows() -> Inputs<impl Fn(u64) -> Floored> {
    at_every_length(&lent_kinds(), 29, 1 << 25, floored_of)
}

pub fn floored_at_any_length() -> Inputs<impl Fn(u64) -> Floored> {
    at_any_length(30, floored_of)
}

pub fn floored_rows_at_the_limit() -> Inputs<impl Fn(u64) -> Floored> {
    let kinds = "rows whose limits are near 1 or another simple fraction";
    at_every_length(kinds, 31, 1 << 24, floored_at_the_limit)
}

/// Rotors whose deltas are all near the room over or under the collective, or near the same part
/// of it, or near small: the last number of each row brings the sum there.
pub fn floored_at_the_limit(random: &mut Random, numbers: usize, outputs: usize) -> Floored {
    let floor = random.one_of(&[0.0, -0.0, 0.05, 0.125, 0.25, 1.0]);
    let thrust = random.unit();
    let thrust = random.one_of(&[0.0, -0.0, 0.5, 1.0, floor, thrust, 1.0 - floor]);
    let thrust = random.near(thrust);
    let [roll, pitch] = [(); 2].map(|_| random.one_of(&[0.0, 0.0, 1.0, -0.5, 0.3]));
    let yaw = random.one_of(&[1.0, -1.0, 0.5, -3.0]);
    let base = if thrust < floor { floor } else { thrust };
    let part = random.one_of(&PARTS);
    let mut lent = Lent::new(numbers, outputs, [thrust, roll, pitch, yaw]);
    fill_rotors(random, lent.rows_mut());
    for row in lent.rows_mut().chunks_exact_mut(4) {
        let delta = delta_at_the_limit(random, base, floor, part);
        row[3] = (delta - (row[1] * roll + row[2] * pitch)) / yaw;
    }
    (lent, floor)
}

// ---- the rows of a frame, which are not told

/// Wrenches, with their floors.
pub fn floored_wrenches() -> Inputs<impl Fn(u64) -> (Wrench, f32)> {
    const SEED: u64 = 32;
    seeded(COMMAND_KINDS, SEED, 1 << 26, |n| {
        wrench_and_floor(&mut Random::new(SEED, n))
    })
}

/// What a call of the quad asks, as a wrench and a floor.
pub fn asked(call: &Call) -> (Wrench, f32) {
    let [roll, pitch, yaw] = call.torque;
    ([call.thrust, roll, pitch, yaw], call.floor)
}

/// Every special value of the quad's thrust-floor.
pub fn special_wrenches() -> Inputs<impl Fn(u64) -> (Wrench, f32)> {
    special_calls(Mix::ThrustFloor).map(|(_, call): (State, Call)| asked(&call))
}

// ---- the quad's rows

/// A call of the quad, as one by its four rows.
pub fn by_quad_rows(call: &Call) -> Floored {
    let (wrench, floor) = asked(call);
    let mut lent = Lent::new(16, 4, wrench);
    lent.rows_mut().copy_from_slice(&quad_x().run[..16]);
    (lent, floor)
}
