//! A state, and a call of a mix on it.

use comparing::hex::Hex;

/// Four motors, then the recorded scale, and the roll, pitch and yaw sums of the motors, which the
/// Rust's state does not have.
pub type State = [f32; 8];

/// What `new` gives.
pub const FRESH: State = [0.0, 0.0, 0.0, 0.0, 1.0, 0.0, 0.0, 0.0];

/// The state of these.
#[inline]
pub fn state([a, b, c, d]: [f32; 4], scale: f32, [roll, pitch, yaw]: [f32; 3]) -> State {
    [a, b, c, d, scale, roll, pitch, yaw]
}

/// The three sums of a state.
#[inline]
pub fn sums(&[_, _, _, _, _, roll, pitch, yaw]: &State) -> [f32; 3] {
    [roll, pitch, yaw]
}

#[derive(Clone, Copy)]
pub enum Mix {
    Plain,
    ThrustFloor,
    Priority,
    Airmode,
    RotorOut,
}

pub const MIXES: [Mix; 5] = [
    Mix::Plain,
    Mix::ThrustFloor,
    Mix::Priority,
    Mix::Airmode,
    Mix::RotorOut,
];

impl Mix {
    pub fn name(self) -> &'static str {
        match self {
            Mix::Plain => "mix",
            Mix::ThrustFloor => "mix_thrust_floor",
            Mix::Priority => "mix_priority",
            Mix::Airmode => "mix_airmode",
            Mix::RotorOut => "mix_rotor_out",
        }
    }
}

/// A call. Plain takes no floor, for airmode it is the idle floor, and only rotor-out takes a
/// rotor.
#[derive(Clone, Copy)]
pub struct Call {
    pub mix: Mix,
    pub torque: [f32; 3],
    pub thrust: f32,
    pub floor: f32,
    pub rotor: usize,
}

impl Hex for Call {
    fn hex(&self) -> String {
        let numbers = [self.thrust.hex(), self.torque.hex(), self.floor.hex()];
        let name = self.mix.name();
        format!("{name} {} rotor {:x}", numbers.join(" "), self.rotor)
    }
}

/// Rotor numbers: the four, and some of those that name none.
pub const ROTORS: [usize; 9] = [0, 1, 2, 3, 4, 5, 255, 1 << 32, usize::MAX];
