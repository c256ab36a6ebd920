//! Special calls: of the values at the thresholds of the rules, all together, and some chosen ones.

use comparing::inputs::{chosen, seeded, Inputs};
use comparing::random::{Random, LEAST};
use comparing::special::{strided, LIMITED, TOP, TORQUES};

use super::call::{Call, Mix, State, FRESH, ROTORS};
use super::inputs::state;

// ---- all of them

/// Every call of a mix with the special values, each on a state of any kind. Rotor-out drops yaw,
/// so there yaw is no table of its own and goes along with the rest.
pub fn special_calls(mix: Mix) -> Inputs<impl Fn(u64) -> (State, Call)> {
    const SEED: u64 = 8;
    const TORQUE: u64 = TORQUES.len() as u64;
    const LIMIT: u64 = LIMITED.len() as u64;
    let (kinds, cases) = match mix {
        Mix::Plain => ("all of 48 thrusts, 48^3 torques", TORQUE.pow(4)),
        Mix::RotorOut => (
            "all of 24 thrusts, 48^2 torques, 24 floors, 9 rotors",
            LIMIT.pow(2) * TORQUE.pow(2) * ROTORS.len() as u64,
        ),
        _ => (
            "all of 24 thrusts, 48^3 torques, 24 floors",
            LIMIT.pow(2) * TORQUE.pow(3),
        ),
    };
    seeded(kinds, SEED, cases, move |n| {
        let mut digits = strided(n, cases);
        let roll = digits.next(&TORQUES);
        let pitch = digits.next(&TORQUES);
        let yaw = match mix {
            Mix::RotorOut => TORQUES[(n % TORQUE) as usize],
            _ => digits.next(&TORQUES),
        };
        let thrust = match mix {
            Mix::Plain => digits.next(&TORQUES),
            _ => digits.next(&LIMITED),
        };
        let call = Call {
            mix,
            torque: [roll, pitch, yaw],
            thrust,
            floor: digits.next(&LIMITED),
            rotor: digits.next(&ROTORS),
        };
        (state(&mut Random::new(SEED, n)), call)
    })
}

// ---- chosen calls

/// Document 01's bench figures of the quad, 1 to 13, and zeros whose signs tell how they came to
/// be.
const CHOSEN: [(Mix, f32, [f32; 3], f32, usize); 22] = [
    (Mix::Plain, 0.75, [0.25, 0.25, 0.0], 0.0, 0),
    (Mix::Plain, 0.25, [0.5, 0.0, 0.0], 0.0, 0),
    (Mix::Plain, 16_777_216.0, [0.0, 0.0, 0.0], 0.0, 0),
    (Mix::Plain, 16_777_220.0, [0.0, 0.0, 0.0], 0.0, 0),
    (Mix::Plain, TOP, [-TOP, -0.25, -0.25], 0.0, 0),
    (Mix::Plain, -0.0, [-0.0, -0.0, -0.0], 0.0, 0),
    (Mix::ThrustFloor, 0.5, [0.125, 0.125, 0.0], 0.25, 0),
    (Mix::ThrustFloor, 0.5, [0.5, 0.0, 0.0], 0.25, 0),
    (Mix::ThrustFloor, -0.0, [0.5, 0.0, 0.0], 0.0, 0),
    (Mix::ThrustFloor, 0.0, [0.5, 0.0, 0.0], -0.0, 0),
    (Mix::Priority, 0.5, [0.25, 0.0, 0.5], 0.0, 0),
    (Mix::Priority, -0.0, [-0.0, -0.0, -0.0], -0.0, 0),
    (Mix::Airmode, 0.25, [0.25, 0.0, 0.0], 0.125, 0),
    (Mix::Airmode, 0.5, [TOP, 0.0, 0.0], 0.25, 0),
    (Mix::Airmode, -0.0, [-0.0, -0.0, -0.0], 0.0, 0),
    (Mix::Airmode, -0.0, [-0.0, -0.0, -0.0], -0.0, 0),
    (Mix::RotorOut, 0.5, [0.25, -0.25, 1.0], 0.0, 0),
    (Mix::RotorOut, 0.5, [-0.25, 0.25, 1.0], 0.0, 0),
    (Mix::RotorOut, 0.5, [0.25, 0.125, 1.0], 0.0, 4),
    (Mix::RotorOut, -0.0, [LEAST, -LEAST, 1.0], -0.0, 1),
    (Mix::RotorOut, -0.0, [8.0, 1.0e-6, 1.0], -0.0, 2),
    (Mix::RotorOut, -0.0, [-0.0, -0.0, 1.0], -0.0, 3),
];

/// The chosen calls, each on a fresh state.
pub fn chosen_calls() -> Inputs<impl Fn(u64) -> (State, Call)> {
    chosen("bench figures, zeros", &CHOSEN).map(|(mix, thrust, torque, floor, rotor)| {
        let call = Call {
            mix,
            torque,
            thrust,
            floor,
            rotor,
        };
        (FRESH, call)
    })
}
