//! The quad's records. The program that replays them holds one state, and each record acts on the
//! state that the one before it left; the answers of all but the last kind are that state
//! afterwards: the four motors, the recorded scale and the three sums.
//!
//!   9            the state is set to the inputs: four motors, scale, three sums
//!   10           a new state: no inputs
//!   11           mix: roll, pitch, yaw, thrust
//!   12, 13, 14   mix_thrust_floor, mix_priority, mix_airmode: the same, and the floor
//!   16 to 22     mix_rotor_out with rotor 0, 1, 2, 3, 4, 255 and the largest: the same
//!   23           motors_to_torque_signs: four motors; the answers are three sums

use relay_mix_quad::{motors_to_torque_signs, QuadMixer};

use comparing::inputs::Inputs;
use comparing::list::{record, List, Record};
use comparing::special::special_fours;

use super::call::{Call, Mix, State, MIXES};
use super::chains::chains;
use super::inputs::{calls, motors};
use super::rust;
use super::special::{chosen_calls, special_calls};

pub fn add(list: &mut List) {
    let mut quad = Quad {
        list,
        mixer: QuadMixer::new(),
    };
    quad.add_chosen();
    for mix in MIXES {
        quad.add_calls(mix.name(), 320, special_calls(mix));
        quad.add_calls(mix.name(), 512, calls(mix));
    }
    quad.add_chains(96);
    list.add(
        "motors_to_torque_signs",
        23,
        64,
        special_fours("motors"),
        signs,
    );
    list.add("motors_to_torque_signs", 23, 64, motors(), signs);
}

/// The rotors that have a kind, from kind 16 on.
const ROTORS: [usize; 7] = [0, 1, 2, 3, 4, 255, usize::MAX];

/// So many calls after another go on from one state.
const TOGETHER: u64 = 8;

fn signs(motors: &[f32; 4]) -> Record {
    record(motors, &motors_to_torque_signs(*motors))
}

/// The list, and the state at its end.
struct Quad<'a> {
    list: &'a mut List,
    mixer: QuadMixer,
}

impl Quad<'_> {
    /// A record whose answers are the state now.
    fn push(&mut self, kind: u32, inputs: &[f32]) {
        let answers = rust::state(&self.mixer);
        self.list.push(kind, record(inputs, &answers));
    }

    fn renew(&mut self) {
        self.mixer = QuadMixer::new();
        self.push(10, &[]);
    }

    fn set(&mut self, state: &State) {
        self.mixer = rust::mixer(state);
        self.list.push(9, record(state, &rust::read(state)));
    }

    /// A call. A rotor that has no kind is replaced by the last that has one, which names none
    /// either.
    fn call(&mut self, call: &Call) {
        let rotor = ROTORS.iter().position(|r| *r == call.rotor);
        let rotor = rotor.unwrap_or(ROTORS.len() - 1);
        let call = Call {
            rotor: ROTORS[rotor],
            ..*call
        };
        rust::mix(&mut self.mixer, &call);
        let [roll, pitch, yaw] = call.torque;
        let mut inputs = vec![roll, pitch, yaw, call.thrust];
        let kind = match call.mix {
            Mix::Plain => 11,
            Mix::ThrustFloor => 12,
            Mix::Priority => 13,
            Mix::Airmode => 14,
            Mix::RotorOut => 16 + rotor as u32,
        };
        if kind != 11 {
            inputs.push(call.floor);
        }
        self.push(kind, &inputs);
    }

    /// Each chosen call on a new state.
    fn add_chosen(&mut self) {
        let inputs = chosen_calls();
        for n in 0..inputs.cases {
            self.renew();
            self.call(&(inputs.make)(n).1);
        }
        println!("five mixes, chosen: {}, {}", inputs.cases, inputs.kinds);
    }

    /// The first so many of the calls, a few together from the state of the first of them.
    fn add_calls(&mut self, name: &str, count: u64, inputs: Inputs<impl Fn(u64) -> (State, Call)>) {
        for n in 0..count {
            let (state, call) = (inputs.make)(n);
            if n % TOGETHER == 0 {
                self.set(&state);
            }
            self.call(&call);
        }
        println!("{name}: {count}, {}", inputs.kinds);
    }

    /// The first so many of the chains.
    fn add_chains(&mut self, count: u64) {
        let inputs = chains();
        for n in 0..count {
            let chain = (inputs.make)(n);
            self.set(&chain.start);
            for call in &chain.calls {
                self.call(call);
            }
        }
        println!("five mixes, chains: {count}, {}", inputs.kinds);
    }
}
