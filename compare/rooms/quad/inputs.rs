//! States and calls of all kinds.

use comparing::inputs::{seeded, Inputs};
use comparing::random::Random;
use comparing::special::{LIMITED, TORQUES};

use super::call::{self, Call, Mix, State, FRESH, ROTORS};

/// A fresh state, a state of any bits, or a mixture. Its sums are those of no motors, so that one
/// which is left as it was shows.
pub fn state(random: &mut Random) -> State {
    match random.below(3) {
        0 => FRESH,
        1 => state_of(random, Random::bits),
        _ => state_of(random, Random::any),
    }
}

/// A state of numbers that are drawn alike. The sums are drawn aside: what is drawn after a state is
/// what it was before states had them.
fn state_of(random: &mut Random, drawn: fn(&mut Random) -> f32) -> State {
    let mut aside = random.aside();
    let motors = [(); 4].map(|_| drawn(random));
    let scale = drawn(random);
    call::state(motors, scale, [(); 3].map(|_| drawn(&mut aside)))
}

/// The numbers of a command, with no mix yet.
pub struct Command {
    pub torque: [f32; 3],
    pub thrust: f32,
    pub floor: f32,
}

/// A torque that asks about this much of a motor: on one axis, or shared by two or three, with any
/// signs. A NaN among them is the quiet one, since the sign of one that an operation makes is the
/// processor's.
fn torque_of(random: &mut Random, size: f32) -> [f32; 3] {
    let share = random.unit();
    let shares = match random.below(4) {
        0 => [1.0, 0.0, 0.0],
        1 => [0.5, 0.5, 0.0],
        2 => [0.5, 0.25, 0.25],
        _ => [share, 1.0 - share, 0.0],
    };
    let first = random.below(3) as usize;
    let mut torque = [0.0; 3];
    for (k, share) in shares.into_iter().enumerate() {
        let sign = random.one_of(&[1.0, -1.0]);
        let part = size * share * sign;
        let asked = if share == 0.0 {
            part
        } else {
            random.near(part)
        };
        torque[(first + k) % 3] = if asked.is_nan() { f32::NAN } else { asked };
    }
    torque
}

/// A command next to a threshold of the rules: thrust against the floor, the room over and under
/// the collective, half of what lies between idle and 1 (a spread is twice the torque), small, 8,
/// 2^23 and 2^24, and torques whose sums overflow.
fn at_a_threshold(random: &mut Random) -> Command {
    let floor = random.one_of(&[0.0, -0.0, 0.05, 0.125, 0.25, 0.3, 0.5, 1.0]);
    let floor = random.near(floor);
    let thrust = match random.below(4) {
        0 => random.near(floor),
        1 => random.unit(),
        2 => random.one_of(&[0.0, -0.0, 0.25, 0.5, 0.75, 1.0]),
        _ => {
            let x = random.one_of(&[1.0, 8_388_608.0, 16_777_216.0, f32::MAX]);
            random.near(x)
        }
    };
    let base = if thrust < floor { floor } else { thrust };
    let size = match random.below(8) {
        0 => 1.0 - base,
        1 => base - floor,
        2 => 1.0 - thrust,
        3 => 0.5 * (1.0 - floor),
        4 => 1.0e-6,
        5 => 8.0,
        6 => random.one_of(&[8_388_608.0, 16_777_216.0]),
        _ => f32::MAX,
    };
    let part = random.one_of(&[1.0, 1.0, 1.0, 2.0, 0.5, 0.25]);
    Command {
        torque: torque_of(random, size * part),
        thrust,
        floor,
    }
}

/// Thrust from 0 to 1, torques from -1 to 1, a floor from 0 to 0.3.
fn in_flight(random: &mut Random) -> Command {
    let part = random.one_of(&[1.0, 0.25]);
    Command {
        torque: [(); 3].map(|_| random.flight() * part),
        thrust: random.flight().abs(),
        floor: 0.3 * random.flight().abs(),
    }
}

/// A command of any kind.
pub fn command(random: &mut Random) -> Command {
    match random.below(5) {
        0 => Command {
            torque: [(); 3].map(|_| random.any()),
            thrust: random.any(),
            floor: random.any(),
        },
        1 => Command {
            torque: [(); 3].map(|_| random.one_of(&TORQUES)),
            thrust: random.one_of(&TORQUES),
            floor: random.one_of(&LIMITED),
        },
        2 => Command {
            torque: [(); 3].map(|_| random.bits()),
            thrust: random.bits(),
            floor: random.bits(),
        },
        3 => at_a_threshold(random),
        _ => in_flight(random),
    }
}

/// What the kinds of commands are.
pub const COMMAND_KINDS: &str = "any mixture, special values, any bits, thresholds, flight";

/// A call of a mix with a command of any kind.
pub fn call(random: &mut Random, mix: Mix) -> Call {
    let Command {
        torque,
        thrust,
        floor,
    } = command(random);
    Call {
        mix,
        torque,
        thrust,
        floor,
        rotor: random.one_of(&ROTORS),
    }
}

/// One call of a mix.
pub fn calls(mix: Mix) -> Inputs<impl Fn(u64) -> (State, Call)> {
    const SEED: u64 = 9;
    let kinds = format!("{COMMAND_KINDS}; state fresh, any bits, mixture");
    seeded(&kinds, SEED, 1 << 27, move |n| {
        let mut random = Random::new(SEED, n);
        (state(&mut random), call(&mut random, mix))
    })
}

// ---- states and motors by themselves

/// States of any bits.
pub fn states() -> Inputs<impl Fn(u64) -> State> {
    const SEED: u64 = 10;
    seeded("fresh, any bits, any mixture", SEED, 1 << 24, |n| {
        state(&mut Random::new(SEED, n))
    })
}

/// Motors of all kinds.
pub fn motors() -> Inputs<impl Fn(u64) -> [f32; 4]> {
    const SEED: u64 = 11;
    seeded("any mixture, any bits, 0..1", SEED, 1 << 26, |n| {
        let mut random = Random::new(SEED, n);
        let kind = random.below(3);
        [(); 4].map(|_| match kind {
            0 => random.any(),
            1 => random.bits(),
            _ => random.unit(),
        })
    })
}
