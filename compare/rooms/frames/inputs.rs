//! Rows, wrenches and motors of all kinds.

use comparing::inputs::{seeded, Inputs};
use comparing::random::Random;
use comparing::special::TORQUES;

use super::frame::{Frame, Wrench};
use super::rust;
use crate::quad::inputs::{command, Command, COMMAND_KINDS};

/// Counts up to one too many, and far ones: the second of those has the low half of 4.
const COUNTS: [usize; 13] = [0, 1, 2, 3, 4, 5, 6, 7, 8, 9, 255, (1 << 32) + 4, usize::MAX];

// ---- rows

/// Numbers of one kind for all rows: any mixture, special values, any bits, or from -1 to 1.
pub fn fill_any(random: &mut Random, run: &mut [f32]) {
    let kind = random.below(4);
    for x in run {
        *x = match kind {
            0 => random.any(),
            1 => random.one_of(&TORQUES),
            2 => random.bits(),
            _ => random.flight(),
        };
    }
}

/// What a rotor gives to roll, pitch or yaw in the frames that are flown.
const EFFECTS: [f32; 10] = [
    1.0, -1.0, 0.0, -0.0, 0.5, -0.5, 0.866, -0.866, 0.707, -0.707,
];

/// Rows as rotors have them: thrust 1, and of each torque a simple part.
pub fn fill_rotors(random: &mut Random, run: &mut [f32]) {
    for row in run.chunks_exact_mut(4) {
        row[0] = 1.0;
        for x in &mut row[1..] {
            *x = random.one_of(&EFFECTS);
        }
    }
}

fn any_rows(random: &mut Random) -> [f32; 32] {
    let mut run = [0.0; 32];
    fill_any(random, &mut run);
    run
}

/// The quad's rows, hex_x's or octo_coax's, with zeros or with other rotors after them, or eight
/// rotors.
fn rotor_rows(random: &mut Random) -> [f32; 32] {
    let mut run = [0.0; 32];
    let kind = random.below(4);
    if kind == 3 || random.below(2) == 0 {
        fill_rotors(random, &mut run);
    }
    match kind {
        0 => run[..16].copy_from_slice(&rust::quad_x().run[..16]),
        1 => run[..24].copy_from_slice(&rust::hex_x_run()),
        2 => run = rust::octo_coax_run(),
        _ => {}
    }
    run
}

/// A way to make rows, and what they are called.
pub struct RowMaker {
    named: &'static str,
    make: fn(&mut Random) -> [f32; 32],
}

pub const ANY_ROWS: RowMaker = RowMaker {
    named: "rows any mixture, special values, any bits, -1..1",
    make: any_rows,
};

pub const ROTOR_ROWS: RowMaker = RowMaker {
    named: "rows quad_x, hex_x, octo_coax, rotors",
    make: rotor_rows,
};

fn frame(random: &mut Random, rows: &RowMaker) -> Frame {
    Frame {
        run: (rows.make)(random),
        count: random.one_of(&COUNTS),
    }
}

/// A wrench of any kind.
pub fn wrench(random: &mut Random) -> Wrench {
    wrench_and_floor(random).0
}

/// A wrench of any kind, and the floor of the same command.
pub fn wrench_and_floor(random: &mut Random) -> (Wrench, f32) {
    let Command {
        torque: [roll, pitch, yaw],
        thrust,
        floor,
    } = command(random);
    ([thrust, roll, pitch, yaw], floor)
}

// ---- all together

/// Frames by themselves.
pub fn frames() -> Inputs<impl Fn(u64) -> Frame> {
    const SEED: u64 = 13;
    let kinds = format!("{}; counts 0 to 9 and 3 far ones", ANY_ROWS.named);
    seeded(&kinds, SEED, 1 << 24, |n| {
        frame(&mut Random::new(SEED, n), &ANY_ROWS)
    })
}

/// A frame and a wrench.
pub fn frame_calls(rows: RowMaker) -> Inputs<impl Fn(u64) -> (Frame, Wrench)> {
    const SEED: u64 = 14;
    let kinds = format!("{}; wrenches {COMMAND_KINDS}", rows.named);
    seeded(&kinds, SEED, 1 << 25, move |n| {
        let mut random = Random::new(SEED, n);
        (frame(&mut random, &rows), wrench(&mut random))
    })
}

/// Wrenches by themselves.
pub fn wrenches() -> Inputs<impl Fn(u64) -> Wrench> {
    const SEED: u64 = 15;
    seeded(COMMAND_KINDS, SEED, 1 << 26, |n| {
        wrench(&mut Random::new(SEED, n))
    })
}

/// A frame and eight motors. Where these are zeros, they are all of one sign or of any.
pub fn frame_motors(rows: RowMaker) -> Inputs<impl Fn(u64) -> (Frame, [f32; 8])> {
    const SEED: u64 = 16;
    let kinds = format!(
        "{}; motors any mixture, special values, any bits, 0..1, zeros",
        rows.named
    );
    seeded(&kinds, SEED, 1 << 25, move |n| {
        let mut random = Random::new(SEED, n);
        let frame = frame(&mut random, &rows);
        let kind = random.below(6);
        let zero = random.one_of(&[0.0, -0.0]);
        let motors = [(); 8].map(|_| match kind {
            0 => random.any(),
            1 => random.one_of(&TORQUES),
            2 => random.bits(),
            3 => random.unit(),
            4 => random.one_of(&[0.0, -0.0]),
            _ => zero,
        });
        (frame, motors)
    })
}
