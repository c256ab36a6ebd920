//! The records of `MixerN`. Rows are written as one run, four numbers a row.
//!
//!   24 to 27   MixerN::mix with a count of 0, 4, 8 and 255: eight rows, roll, pitch, yaw, thrust;
//!              the answers are eight motors and what `n` says
//!   28         the mix of MixerN::quad_x: roll, pitch, yaw, thrust; the answers are the same
//!   29         MixerN::achieved_wrench with a count of 3: eight rows, eight motors; the answers
//!              are four sums

use relay_mix_quad::MixerN;

use comparing::inputs::{chosen, Inputs};
use comparing::list::{record, words, List, Record};
use comparing::special::{special_fours, TOP};

use super::frame::{Frame, Wrench};
use super::inputs::{frame_calls, frame_motors, wrenches, RowMaker, ANY_ROWS, ROTOR_ROWS};
use super::rust;

pub fn add(list: &mut List) {
    add_mixes(list, 64, ANY_ROWS);
    add_mixes(list, 192, ROTOR_ROWS);
    add_wrenches(list, "MixerN::quad_x, mix", 28, |w| {
        frame_mix(&MixerN::quad_x(), w)
    });
    for rows in [ANY_ROWS, ROTOR_ROWS] {
        let name = "MixerN::achieved_wrench";
        list.add(name, 29, 48, frame_motors(rows), achieved_wrench);
    }
}

/// The counts that have a kind, from kind 24 on.
const COUNTS: [usize; 4] = [0, 4, 8, 255];

/// A mix: the inputs but for the rows, and the answers.
fn frame_mix(frame: &MixerN, w: &Wrench) -> Record {
    let [thrust, roll, pitch, yaw] = *w;
    let asked = [roll, pitch, yaw, thrust];
    let (inputs, mut answers) = record(&asked, &rust::frame_mix(frame, w));
    answers.push(frame.n() as u32);
    (inputs, answers)
}

/// The first so many of the frames, with the counts in turn.
fn add_mixes(list: &mut List, count: u64, rows: RowMaker) {
    let inputs = frame_calls(rows);
    for n in 0..count {
        let which = n as usize % COUNTS.len();
        let (Frame { run, .. }, w) = (inputs.make)(n);
        let count = COUNTS[which];
        let (asked, answers) = frame_mix(&rust::frame(&Frame { run, count }), &w);
        list.push(24 + which as u32, ([words(&run), asked].concat(), answers));
    }
    println!("MixerN::mix, four counts: {count}, {}", inputs.kinds);
}

fn achieved_wrench((f, motors): &(Frame, [f32; 8])) -> Record {
    let frame = rust::frame(&Frame { count: 3, ..*f });
    let inputs = [&f.run[..], motors].concat();
    record(&inputs, &frame.achieved_wrench(motors))
}

// ---- one frame, of which only the wrench is told

/// Document 01's bench figures 4, 14 and 15, and zeros.
const CHOSEN: [Wrench; 4] = [
    [TOP, -TOP, -0.25, -0.25],
    [0.0, 0.5, 0.0, 0.0],
    [f32::INFINITY, 0.0, 0.0, 0.0],
    [-0.0, -0.0, -0.0, -0.0],
];

fn chosen_wrenches() -> Inputs<impl Fn(u64) -> Wrench> {
    chosen("bench figures, zeros", &CHOSEN)
}

pub fn add_wrenches(list: &mut List, name: &str, kind: u32, mix: fn(&Wrench) -> Record) {
    list.add_all(name, kind, chosen_wrenches(), mix);
    list.add(name, kind, 32, special_fours("wrenches"), mix);
    list.add(name, kind, 64, wrenches(), mix);
}
