//! An autopilot's steps in small, with both crates: a quad's loop that loses a rotor, the same frame as
//! a `MixerN`, a hex frame, a hard roll on it, and a command sheet. `bindings/rust/run` builds it, runs
//! it and compares what it prints with example.txt.

use relay_mix_multi::thrust_floor::{self, Floored};
use relay_mix_multi::{hex_x, octo_coax, Mixer, Wrench};
use relay_mix_quad::{motors_to_torque_signs, sheet, MixerN, QuadMixer};

/// Made by the compiler: `new` is a `const fn`, as in the Rust.
static AT_REST: QuadMixer = QuadMixer::new();

/// No healthy motor is commanded under this.
const FLOOR: f32 = 0.125;

/// What one step asks for: a thrust, and a torque (roll, pitch, yaw).
struct Step {
    what: &'static str,
    thrust: f32,
    torque: [f32; 3],
    lost: Option<usize>,
}

const FLIGHT: [Step; 5] = [
    Step {
        what: "hover",
        thrust: 0.5,
        torque: [0.0, 0.0, 0.0],
        lost: None,
    },
    Step {
        what: "roll that fits",
        thrust: 0.5,
        torque: [0.25, 0.0, 0.0],
        lost: None,
    },
    Step {
        what: "roll that does not",
        thrust: 0.5,
        torque: [0.75, 0.0, 0.0],
        lost: None,
    },
    Step {
        what: "a sensor's NaN",
        thrust: 0.5,
        torque: [f32::NAN, 0.125, 0.0],
        lost: None,
    },
    Step {
        what: "M1 lost",
        thrust: 0.5,
        torque: [0.25, -0.25, 0.0],
        lost: Some(0),
    },
];

fn show(what: &str, numbers: &[f32]) {
    print!("{what:<20}");
    for x in numbers {
        print!(" {x:.6} ({:08x})", x.to_bits());
    }
    println!();
}

/// The loop: one mix a step, and what it gave for the rate controller.
fn fly() -> QuadMixer {
    println!("quad, floor {FLOOR}: M1 M2 M3 M4, then the recorded scale");
    let mut mixer = AT_REST;
    for step in &FLIGHT {
        let motors = match step.lost {
            None => mixer.mix_thrust_floor(step.torque, step.thrust, FLOOR),
            Some(rotor) => mixer.mix_rotor_out(rotor, step.torque, step.thrust, FLOOR),
        };
        let [m1, m2, m3, m4] = motors;
        show(step.what, &[m1, m2, m3, m4, mixer.last_torque_scale()]);
    }
    show("torque sums", &motors_to_torque_signs(mixer.last_motors()));
    show("stored in the state", &mixer.last_torque());
    mixer
}

/// The same command to other frames.
fn other_frames() {
    println!("other frames, thrust 0.5 and roll 0.25");
    let frame = MixerN::quad_x();
    let motors = frame.mix([0.25, 0.0, 0.0], 0.5);
    show("MixerN quad_x", &motors[..frame.n()]);
    show("it gives", &frame.achieved_wrench(&motors));
    let wrench = Wrench {
        thrust: 0.5,
        roll: 0.25,
        pitch: 0.0,
        yaw: 0.0,
    };
    show("hex_x", &hex_x().mix(wrench));
    show("octo_coax", &octo_coax().mix(wrench));
    let three = Mixer::new([
        [1.0, 0.5, 0.5, 0.0],
        [1.0, 0.5, -0.5, 0.0],
        [1.0, -1.0, 0.0, 0.0],
    ]);
    show("three rotors", &three.mix(wrench));
}

/// The mean of the motors.
fn lift(motors: &[f32]) -> f32 {
    motors.iter().sum::<f32>() / motors.len() as f32
}

/// The motors, and the scale.
fn show_floored<const M: usize>(what: &str, floored: Floored<M>) {
    show(what, &[&floored.motors[..], &[floored.scale]].concat());
}

/// More roll than fits: each motor clamped by itself, and then all torque cut by one scale.
fn hard_roll() {
    println!(
        "a hard roll, thrust 0.75, roll 0.5, floor {FLOOR}: motors, then thrust-floor's scale"
    );
    let wrench = Wrench {
        thrust: 0.75,
        roll: 0.5,
        pitch: 0.0,
        yaw: 0.0,
    };
    let alone = hex_x().mix(wrench);
    let floored = thrust_floor::hex_x(wrench, FLOOR);
    show("hex_x", &alone);
    show_floored("hex_x, thrust-floor", floored);
    let (without, with) = (lift(&alone), lift(&floored.motors));
    println!("the lift             {without:.6} without it, {with:.6} with it");
    let by_rows = thrust_floor::mix(&octo_coax(), wrench, FLOOR);
    show_floored("octo, thrust-floor", by_rows);
}

/// Document 01's sheet: one thrust-floor command, thrust 0.5, roll 0.5, floor 0.25.
const SHEET: [u8; 28] = [
    1, 1, 28, 0, // version, entries, length
    1, 0, 8, 0, // kind, rotor byte, where the body begins
    0, 0, 0, 0x3f, 0, 0, 0, 0x3f, 0, 0, 0, 0, 0, 0, 0, 0, 0, 0, 0x80, 0x3e,
];

fn run_sheet(mut state: QuadMixer) {
    println!("a sheet of one entry, run from the state of the flight");
    let mut out = [0; sheet::ANSWER_BYTES];
    match sheet::run(&SHEET, &mut state, &mut out) {
        Ok(()) => println!("accepted"),
        Err(refused) => println!("{refused}"),
    }
    let answer: Vec<f32> = out
        .chunks_exact(4)
        .map(|b| f32::from_le_bytes([b[0], b[1], b[2], b[3]]))
        .collect();
    show("its answer", &answer);
    println!("its body has {} bytes", sheet::body(&SHEET, 0).len());
    let mut wrong = SHEET;
    wrong[4] = 5;
    match sheet::run(&wrong, &mut state, &mut out) {
        Ok(()) => println!("kind 5: accepted"),
        Err(refused) => println!("kind 5: {refused}"),
    }
    show("the state stays", &state.last_motors());
    show("so does its torque", &state.last_torque());
}

fn main() {
    let state = fly();
    other_frames();
    hard_roll();
    run_sheet(state);
}
