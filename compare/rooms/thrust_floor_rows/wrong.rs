//! Thrust-floor over rows that is wrong on purpose, in the place of ours. Each has to be noticed;
//! and the same function with no slip must not differ, which shows that it is the slips that are
//! noticed. It follows `mix_thrust_floor` of relay-mix-quad (Apache-2.0) over any number of rows,
//! and is written otherwise than the model: numbers are treated, fitted and clamped by the Rust's
//! own functions.

use relay_mix_quad::passed_on::{clamp_floor, sanitise, scale_to_fit};

use comparing::inputs::Inputs;
use comparing::row::{row, Row};
use comparing::table::Wrong;

use super::inputs::{
    floored_at_any_length, floored_rows, floored_rows_at_the_limit, floored_wrenches, scaled,
    Floored, Scaled,
};
use super::model;
use crate::frames::frame::Wrench;
use crate::frames::rust::{hex_x_run, octo_coax_run};
use crate::numbers::rust::limit;

/// What is done wrong.
#[derive(Clone, Copy, PartialEq)]
enum Slip {
    None,
    ThrustInDelta,
    ThrustInCollective,
    TorquesUntreated,
    DeltasUntreated,
    SummedFromTheLast,
    NotLifted,
    ScaleForEach,
    LastNotAsked,
    ScaleOfPlusZero,
    ClampedToZero,
    NoScaleOfNoRotors,
    SixtyFiveOutputs,
    SixtyFourRefused,
    OutputsOfRefused,
    ScaleOfRefused,
}

const SLIPS: [(Slip, &str); 15] = [
    (Slip::ThrustInDelta, "the thrust product in the delta"),
    (
        Slip::ThrustInCollective,
        "the collective times the row's thrust",
    ),
    (Slip::TorquesUntreated, "torques not treated"),
    (Slip::DeltasUntreated, "deltas not treated"),
    (Slip::SummedFromTheLast, "products summed from the last"),
    (Slip::NotLifted, "the thrust not lifted to the floor"),
    (Slip::ScaleForEach, "a scale for each rotor"),
    (Slip::LastNotAsked, "the last rotor not asked for its limit"),
    (Slip::ScaleOfPlusZero, "a scale of -0 made +0"),
    (
        Slip::ClampedToZero,
        "motors clamped to 0 and not to the floor",
    ),
    (
        Slip::NoScaleOfNoRotors,
        "the scale left by a call with no rotors",
    ),
    (Slip::SixtyFiveOutputs, "65 outputs accepted"),
    (Slip::SixtyFourRefused, "64 outputs refused"),
    (Slip::OutputsOfRefused, "zeros written by a refused call"),
    (Slip::ScaleOfRefused, "the scale written by a refused call"),
];

pub fn wrong() -> Wrong {
    let mut rows: Vec<Row> = SLIPS.map(|(slip, name)| slipped(slip, name)).into();
    rows.push(row(
        "thrust-floor of hex_x, the sign of one pitch",
        floored_wrenches(),
        hex_x_with_a_sign,
        model::hex_x_thrust_floor,
    ));
    rows.push(row(
        "thrust-floor of octo_coax, one yaw left out",
        floored_wrenches(),
        octo_coax_without_a_yaw,
        model::octo_coax_thrust_floor,
    ));
    let name = "the function of its wrong rows with nothing wrong";
    Wrong {
        right: Some(slipped(Slip::None, name)),
        rows,
    }
}

// ---- rows that are lent

/// Calls of all kinds in turn.
fn floored_calls() -> Inputs<impl Fn(u64) -> Floored> {
    let (any, limits) = (floored_rows(), floored_rows_at_the_limit());
    let lengths = floored_at_any_length();
    Inputs {
        kinds: "the kinds of thrust-floor by rows in turn".into(),
        cases: 1 << 24,
        make: move |n| match n % 3 {
            0 => (any.make)(n / 3),
            1 => (limits.make)(n / 3),
            _ => (lengths.make)(n / 3),
        },
    }
}

fn slipped(slip: Slip, name: &str) -> Row {
    let name = format!("thrust-floor by rows, {name}");
    let wrong = move |f: &Floored| -> Scaled {
        scaled(
            |rows, w, floor, out, scale| slip.mix(rows, w, floor, out, scale),
            f,
        )
    };
    row(name, floored_calls(), wrong, model::by_rows)
}

impl Slip {
    fn mix(self, rows: &[f32], w: &Wrench, floor: f32, out: &mut [f32], scale: &mut f32) -> u32 {
        if self.refuses(rows, out) {
            match self {
                Slip::OutputsOfRefused => out.fill(0.0),
                Slip::ScaleOfRefused => *scale = 1.0,
                _ => {}
            }
            return 10;
        }
        let (t, floor) = (limit(&w[0]), limit(&floor));
        let base = match self {
            Slip::NotLifted => t,
            _ if t < floor => floor,
            _ => t,
        };
        let deltas: Vec<f32> = rows.chunks(4).map(|row| self.delta(row, w)).collect();
        let s = self.scale(base, &deltas, floor);
        for ((motor, d), row) in out.iter_mut().zip(&deltas).zip(rows.chunks(4)) {
            let base = match self {
                Slip::ThrustInCollective => base * row[0],
                _ => base,
            };
            let s = match self {
                Slip::ScaleForEach => fitted(base, &[*d], floor),
                _ => s,
            };
            let floor = match self {
                Slip::ClampedToZero => 0.0,
                _ => floor,
            };
            *motor = clamp_floor(base + s * d, floor);
        }
        if !(out.is_empty() && self == Slip::NoScaleOfNoRotors) {
            *scale = s;
        }
        0
    }

    fn refuses(self, rows: &[f32], out: &[f32]) -> bool {
        let most = match self {
            Slip::SixtyFiveOutputs => 65,
            Slip::SixtyFourRefused => 63,
            _ => 64,
        };
        most < out.len() || rows.len() != 4 * out.len()
    }

    fn delta(self, row: &[f32], w: &Wrench) -> f32 {
        let torque = match self {
            Slip::TorquesUntreated => *w,
            _ => w.map(sanitise),
        };
        let [thrust, roll, pitch, yaw] = [0, 1, 2, 3].map(|k| row[k] * torque[k]);
        let sum = match self {
            Slip::ThrustInDelta => thrust + roll + pitch + yaw,
            Slip::SummedFromTheLast => yaw + pitch + roll,
            _ => roll + pitch + yaw,
        };
        match self {
            Slip::DeltasUntreated => sum,
            _ => sanitise(sum),
        }
    }

    fn scale(self, base: f32, deltas: &[f32], floor: f32) -> f32 {
        let asked = match self {
            Slip::LastNotAsked => deltas.len().saturating_sub(1),
            _ => deltas.len(),
        };
        let s = fitted(base, &deltas[..asked], floor);
        match self {
            Slip::ScaleOfPlusZero => s.abs(),
            _ => s,
        }
    }
}

/// The Rust's fit scale, four motors at a time: a motor of delta 0 puts no limit, and the smaller
/// counts.
fn fitted(base: f32, deltas: &[f32], floor: f32) -> f32 {
    deltas.chunks(4).fold(1.0, |held, part| {
        let mut four = [0.0; 4];
        four[..part.len()].copy_from_slice(part);
        let s = scale_to_fit(&[base; 4], &four, floor);
        if s < held {
            s
        } else {
            held
        }
    })
}

// ---- the rows of a frame

/// Wrong in the third rotor's pitch, which is to be -0.866.
fn hex_x_with_a_sign(asked: &(Wrench, f32)) -> ([f32; 6], f32) {
    let mut run = hex_x_run();
    run[10] = -run[10];
    model::frame_thrust_floor(&run, asked)
}

/// Wrong in the last rotor's yaw, which is to be 1.
fn octo_coax_without_a_yaw(asked: &(Wrench, f32)) -> ([f32; 8], f32) {
    let mut run = octo_coax_run();
    run[31] = 0.0;
    model::frame_thrust_floor(&run, asked)
}
