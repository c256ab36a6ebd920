//! The commands that are timed: two sets, a million in each.

use std::rc::Rc;

use crate::random::Random;

/// How many commands a set has, and how many of them are timed at once. Both are multiples of 64,
/// for a function that takes so many commands in one call.
pub const COMMANDS: usize = 1_000_000;
pub const PART: usize = 8_000;

pub const SEED: u64 = 26;

/// One command: every timed function takes a part of it.
#[derive(Clone, Copy)]
pub struct Asked {
    /// Thrust, roll, pitch, yaw.
    pub wrench: [f32; 4],
    pub floor: f32,
    /// The lost rotor, 0 to 3, or 4 for none.
    pub rotor: usize,
}

impl Asked {
    pub fn thrust(&self) -> f32 {
        self.wrench[0]
    }

    pub fn torque(&self) -> &[f32; 3] {
        self.wrench.last_chunk().unwrap()
    }
}

/// All commands of a set.
pub type Commands = Rc<Vec<Asked>>;

pub struct Set {
    pub name: &'static str,
    /// Thrust from here to there.
    thrust: [f32; 2],
    /// Roll and pitch, and yaw, up to this in size.
    tilt: f32,
    yaw: f32,
    /// A floor up to this.
    floor: f32,
}

pub const SETS: [Set; 2] = [
    Set {
        name: "ordinary",
        thrust: [0.3, 0.7],
        tilt: 0.2,
        yaw: 0.1,
        floor: 0.1,
    },
    Set {
        name: "saturating",
        thrust: [0.0, 1.0],
        tilt: 1.0,
        yaw: 1.0,
        floor: 0.3,
    },
];

impl Set {
    pub fn commands(&self) -> Commands {
        Rc::new((0..COMMANDS).map(|n| self.asked(n)).collect())
    }

    /// Command n. A rotor is lost for a fifth of the commands at a time, as in a flight.
    fn asked(&self, n: usize) -> Asked {
        let mut random = Random::new(SEED, n as u64);
        let [from, to] = self.thrust;
        let thrust = from + (to - from) * random.unit();
        let mut up_to = |size: f32| size * (2.0 * random.unit() - 1.0);
        let wrench = [thrust, up_to(self.tilt), up_to(self.tilt), up_to(self.yaw)];
        Asked {
            wrench,
            floor: self.floor * random.unit(),
            rotor: n * 5 / COMMANDS,
        }
    }

    /// What is said of the set.
    pub fn told(&self) -> String {
        let [from, to] = self.thrust;
        let Set {
            name,
            tilt,
            yaw,
            floor,
            ..
        } = self;
        format!(
            "{name}: thrust {from} to {to}, roll and pitch up to {tilt}, yaw up to {yaw}, \
             floor up to {floor}"
        )
    }
}
