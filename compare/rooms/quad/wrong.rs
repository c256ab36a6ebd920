//! Mixes that are wrong on purpose, in the place of ours. Each follows the function of
//! relay-mix-quad that it is named after (Apache-2.0), but for the one change.

use relay_mix_quad::motors_to_torque_signs;
use relay_mix_quad::passed_on::{clamp_floor, sanitise, scale_to_fit, solve3};

use comparing::row::{row, Row};
use comparing::table::Wrong;

use super::call::{self, sums, Call, Mix, State};
use super::chains::{chains, Chain, CALLS};
use super::inputs::{calls, states};
use super::rust::{called, chained, read, returned, After};
use crate::equations::inputs::{PITCH, ROLL};
use crate::numbers::rust::limit;

pub fn wrong() -> Wrong {
    let mixes: [(&str, Mix, fn(&State, &Call) -> State); 10] = [
        ("mix, treated sums", Mix::Plain, plain_of_treated_sums),
        ("mix_thrust_floor, scale kept", Mix::ThrustFloor, scale_kept),
        (
            "mix_thrust_floor, a thrust of -0 lifted to +0",
            Mix::ThrustFloor,
            thrust_floor_lifted_to_equal,
        ),
        (
            "mix_priority, yaw before roll and pitch in the sum",
            Mix::Priority,
            priority_in_another_order,
        ),
        (
            "mix_airmode, a shift of +0 not added",
            Mix::Airmode,
            airmode_without_zero_shift,
        ),
        (
            "mix_airmode, +infinity to 1",
            Mix::Airmode,
            airmode_of_infinity,
        ),
        (
            "mix_airmode, thrust lifted to idle",
            Mix::Airmode,
            airmode_lifted,
        ),
        (
            "mix_rotor_out, healthy rotors in rising order",
            Mix::RotorOut,
            rotor_out_in_rising_order,
        ),
        ("mix_rotor_out, scale kept", Mix::RotorOut, scale_kept),
        (
            "mix_rotor_out, rotor 4 or more taken modulo 4",
            Mix::RotorOut,
            rotor_out_modulo_four,
        ),
    ];
    let mut rows: Vec<Row> = mixes
        .into_iter()
        .map(|(name, mix, wrong)| {
            let ours = move |(s, c): &(State, Call)| returned(wrong(s, c));
            row(name, calls(mix), ours, called)
        })
        .collect();
    rows.push(row(
        "five mixes, chains, each call on the first state",
        chains(),
        chain_from_the_start,
        chained,
    ));
    rows.extend(torques());
    rows.into()
}

/// The signs of yaw of the four rotors.
const YAW: [f32; 4] = [-1.0, 1.0, -1.0, 1.0];

const ALL: [usize; 4] = [0, 1, 2, 3];

fn state(motors: [f32; 4], scale: f32) -> State {
    call::state(motors, scale, motors_to_torque_signs(motors))
}

/// The Rust's state after a call.
fn right(before: &State, call: &Call) -> State {
    called(&(*before, *call)).1
}

/// What each torque asks of the motors, as the three products.
fn products(call: &Call) -> [[f32; 3]; 4] {
    let [r, p, y] = call.torque.map(sanitise);
    ALL.map(|i| [ROLL[i] * r, PITCH[i] * p, YAW[i] * y])
}

/// Wrong where a sum overflows, which is to stay an infinity.
fn plain_of_treated_sums(before: &State, call: &Call) -> State {
    let t = sanitise(call.thrust);
    let sums = products(call).map(|[r, p, y]| sanitise(t + r + p + y));
    let most = sums.into_iter().fold(sums[0], f32::max);
    let motors = sums.map(|x| {
        let x = if 1.0 < most { x - (most - 1.0) } else { x };
        clamp_floor(x, 0.0)
    });
    state(motors, before[4])
}

/// Wrong in the scale, which thrust-floor and rotor-out record.
fn scale_kept(before: &State, call: &Call) -> State {
    let [a, b, c, d, ..] = right(before, call);
    state([a, b, c, d], before[4])
}

/// Wrong where the thrust equals the floor, which is then to be left: of two zeros the other sign.
fn thrust_floor_lifted_to_equal(before: &State, call: &Call) -> State {
    let (t, floor) = (limit(&call.thrust), limit(&call.floor));
    let thrust = if t <= floor { floor } else { t };
    right(before, &Call { thrust, ..*call })
}

/// Wrong in the order of the last two terms.
fn priority_in_another_order(before: &State, call: &Call) -> State {
    let (t, floor) = (limit(&call.thrust), limit(&call.floor));
    let base = if t < floor { floor } else { t };
    let rp = products(call).map(|[r, p, _]| sanitise(r + p));
    let yaw = products(call).map(|[_, _, y]| sanitise(y));
    let sy = scale_to_fit(&rp.map(|d| base + d), &yaw, floor);
    let srp = scale_to_fit(&yaw.map(|d| base + sy * d), &rp, floor);
    let motors = ALL.map(|i| clamp_floor(base + sy * yaw[i] + srp * rp[i], floor));
    state(motors, before[4])
}

// ---- airmode

/// Airmode, but for the collective, the adding of the shift and the clamp, which are given.
fn airmode(
    before: &State,
    call: &Call,
    t: f32,
    add: fn(f32, f32) -> f32,
    clamp: fn(f32, f32) -> f32,
) -> State {
    let idle = limit(&call.floor);
    let deltas = products(call).map(|[r, p, y]| sanitise(r + p + y));
    let (least, most) = extremes(deltas);
    let (span, range) = (1.0 - idle, sanitise(most - least));
    let s = if 1.0e-6 < range && span < range {
        span / range
    } else {
        1.0
    };
    let motors = deltas.map(|d| t + d * s);
    let (lowest, highest) = extremes(motors);
    let shift = if lowest < idle {
        idle - lowest
    } else if 1.0 < highest {
        -(highest - 1.0)
    } else {
        0.0
    };
    state(motors.map(|x| clamp(add(x, shift), idle)), before[4])
}

/// The least and the largest, the earlier of equal ones.
fn extremes(all: [f32; 4]) -> (f32, f32) {
    let smaller = |held: f32, x: f32| if x < held { x } else { held };
    let larger = |held: f32, x: f32| if held < x { x } else { held };
    (
        all.into_iter().reduce(smaller).unwrap_or(0.0),
        all.into_iter().reduce(larger).unwrap_or(0.0),
    )
}

/// Wrong at -0 where nothing is to be moved: the added +0 turns it into +0.
fn airmode_without_zero_shift(before: &State, call: &Call) -> State {
    let add = |x, by| if by == 0.0 { x } else { x + by };
    airmode(before, call, limit(&call.thrust), add, clamp_floor)
}

/// Wrong where a moved motor overflows, which is to give idle.
fn airmode_of_infinity(before: &State, call: &Call) -> State {
    let clamp = |x, lo| match x {
        f32::INFINITY => 1.0,
        _ => clamp_floor(x, lo),
    };
    airmode(before, call, limit(&call.thrust), |x, by| x + by, clamp)
}

/// Wrong where the thrust is under idle: it is to be taken as it is.
fn airmode_lifted(before: &State, call: &Call) -> State {
    let (t, idle) = (limit(&call.thrust), limit(&call.floor));
    let t = if t < idle { idle } else { t };
    airmode(before, call, t, |x, by| x + by, clamp_floor)
}

// ---- rotor-out

/// Wrong in the order of the healthy rotors, which is to begin after the lost one. Only the sign of
/// a zero shows it.
fn rotor_out_in_rising_order(before: &State, call: &Call) -> State {
    if 4 <= call.rotor {
        return right(before, call);
    }
    let (t, floor) = (limit(&call.thrust), limit(&call.floor));
    let [r, p] = [call.torque[0], call.torque[1]].map(|x| sanitise(x).clamp(-8.0, 8.0));
    let mut healthy = [1, 2, 3].map(|k| (call.rotor + k) % 4);
    healthy.sort();
    let rows = [
        [1.0; 3],
        healthy.map(|i| ROLL[i]),
        healthy.map(|i| PITCH[i]),
    ];
    let placed = |right| {
        let mut all = [0.0; 4];
        for (i, x) in healthy
            .into_iter()
            .zip(solve3(rows, right).unwrap_or([0.0; 3]))
        {
            all[i] = x;
        }
        all
    };
    let (base, delta) = (placed([3.0 * t, 0.0, 0.0]), placed([0.0, r, p]));
    let s = scale_to_fit(&base, &delta, floor);
    let mut motors = ALL.map(|i| clamp_floor(sanitise(base[i] + s * delta[i]), floor));
    motors[call.rotor] = 0.0;
    state(motors, 1.0)
}

/// Wrong where no rotor is lost.
fn rotor_out_modulo_four(before: &State, call: &Call) -> State {
    let rotor = call.rotor % 4;
    right(before, &Call { rotor, ..*call })
}

// ---- chains

/// Wrong from the second call on, which is to go on from the state that the first left.
fn chain_from_the_start(chain: &Chain) -> [After; CALLS] {
    chain.calls.map(|call| called(&(chain.start, call)))
}

// ---- the torque that is stored

/// Mixes whose motors and scale are right.
fn torques() -> Vec<Row> {
    let wrong: [(&str, fn(&State, &Call) -> State); 4] = [
        ("stored torque, as it was before", torque_kept),
        ("stored torque, of the motors before", torque_before),
        ("stored torque, yaw for pitch", torque_yaw_twice),
        (
            "stored torque, summed from the first product",
            torque_from_first,
        ),
    ];
    let mut rows: Vec<Row> = wrong
        .into_iter()
        .map(|(name, wrong)| row(name, chains(), move |c| chained_by(wrong, c), chained))
        .collect();
    rows.push(row(
        "stored torque, worked out by its reader",
        states(),
        |s| worked_out(s),
        read,
    ));
    rows
}

fn chained_by(wrong: fn(&State, &Call) -> State, chain: &Chain) -> [After; CALLS] {
    let mut before = chain.start;
    chain.calls.map(|call| {
        before = wrong(&before, &call);
        returned(before)
    })
}

fn torque_kept(before: &State, call: &Call) -> State {
    let [a, b, c, d, scale, ..] = right(before, call);
    call::state([a, b, c, d], scale, sums(before))
}

fn torque_before(before: &State, call: &Call) -> State {
    let [a, b, c, d, scale, ..] = right(before, call);
    let [e, f, g, h, ..] = *before;
    call::state([a, b, c, d], scale, motors_to_torque_signs([e, f, g, h]))
}

fn torque_yaw_twice(before: &State, call: &Call) -> State {
    let [a, b, c, d, scale, roll, _, yaw] = right(before, call);
    call::state([a, b, c, d], scale, [roll, yaw, yaw])
}

/// Wrong where all motors are zeros, two of them -0: each sum is to begin with +0.
fn torque_from_first(before: &State, call: &Call) -> State {
    let [a, b, c, d, scale, ..] = right(before, call);
    let motors = [a, b, c, d];
    let sum = |signs: [f32; 4]| {
        let products = ALL.map(|i| signs[i] * motors[i]);
        products.into_iter().reduce(|s, x| s + x).unwrap_or(0.0)
    };
    call::state(motors, scale, [sum(ROLL), sum(PITCH), sum(YAW)])
}

/// Wrong in a state whose sums are not those of its motors.
fn worked_out(read: &State) -> State {
    let [a, b, c, d, scale, ..] = *read;
    state([a, b, c, d], scale)
}
