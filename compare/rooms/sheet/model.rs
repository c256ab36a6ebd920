//! A model of the command sheet over the Rust's `QuadMixer`. The Rust has no sheet, so this is what
//! ours is held to: the sheet's rules are written from document 01 alone, "The command sheet
//! (ours)", whose words are quoted, and the mixes are the Rust's.

use relay_mix_quad::QuadMixer;

use comparing::answer::bits;

use crate::quad::call::{Call, Mix, State};
use crate::quad::rust;

/// What stands before the entries, and what one of them takes.
pub const HEAD: usize = 4;
pub const ENTRY: usize = 4;

/// What an entry takes in the output: "four motors, then the recorded scale".
pub const ANSWER: usize = 20;

/// The most entries, and the most bytes that `mixrun` takes in.
pub const MOST: usize = 64;
pub const READ: usize = 2048;

/// A number of the table, and the entry that it comes with.
pub type Told = (u32, u32);

/// What a run answers, and the state that it leaves.
pub struct Ran {
    pub number: u32,
    pub entry: u32,
    pub state: State,
}

// ---- where the numbers stand

fn two_bytes(sheet: &[u8], at: usize) -> usize {
    usize::from(u16::from_le_bytes([sheet[at], sheet[at + 1]]))
}

fn float(sheet: &[u8], at: usize) -> f32 {
    f32::from_le_bytes([sheet[at], sheet[at + 1], sheet[at + 2], sheet[at + 3]])
}

fn count(sheet: &[u8]) -> usize {
    usize::from(sheet[1])
}

/// An entry's kind, rotor byte and offset.
fn entry(sheet: &[u8], i: usize) -> (u8, u8, usize) {
    let at = HEAD + ENTRY * i;
    (sheet[at], sheet[at + 1], two_bytes(sheet, at + 2))
}

/// "thrust, roll, pitch, yaw (16 bytes) and, except for plain, floor (20 bytes)".
fn body_len(kind: u8) -> usize {
    match kind {
        0 => 16,
        _ => 20,
    }
}

// ---- accepted or refused

/// The numbers 1 to 8, or 0: what a sheet gives whatever the output is.
#[inline]
pub fn judge_alone(sheet: &[u8]) -> Told {
    if sheet.len() < HEAD {
        return (1, 0);
    }
    if sheet[0] != 1 {
        return (2, 0);
    }
    let k = count(sheet);
    if MOST < k {
        return (3, 0);
    }
    if two_bytes(sheet, 2) != sheet.len() || sheet.len() < HEAD + ENTRY * k {
        return (4, 0);
    }
    let mut end = HEAD + ENTRY * k;
    for i in 0..k {
        let (kind, rotor, offset) = entry(sheet, i);
        if 4 < kind {
            return (5, i as u32);
        }
        if rotor != 0 && kind != 4 {
            return (6, i as u32);
        }
        if offset != end {
            return (7, i as u32);
        }
        end = offset + body_len(kind);
    }
    if end != sheet.len() {
        return (8, 0);
    }
    (0, 0)
}

/// The number of a sheet whose output has so much room.
#[inline]
pub fn judge(sheet: &[u8], room: usize) -> Told {
    let told = judge_alone(sheet);
    if told == (0, 0) && room < ANSWER * count(sheet) {
        return (9, 0);
    }
    told
}

/// Where the body of entry i begins, and its length. "For a refused sheet or i not under k, an
/// empty part": no output is lent here, so the refusals are 1 to 8.
pub fn body(sheet: &[u8], i: usize) -> (usize, usize) {
    if judge_alone(sheet) != (0, 0) || count(sheet) <= i {
        return (0, 0);
    }
    let (kind, _, offset) = entry(sheet, i);
    (offset, body_len(kind))
}

// ---- the run

/// The call that entry i of an accepted sheet stands for. The Rust takes a rotor number of 4 or
/// more as none lost, as the sheet takes the byte.
#[inline]
fn call(sheet: &[u8], i: usize) -> Call {
    let (kind, rotor, at) = entry(sheet, i);
    let mix = match kind {
        0 => Mix::Plain,
        1 => Mix::ThrustFloor,
        2 => Mix::Priority,
        3 => Mix::Airmode,
        _ => Mix::RotorOut,
    };
    Call {
        mix,
        torque: [4, 8, 12].map(|from| float(sheet, at + from)),
        thrust: float(sheet, at),
        floor: match kind {
            0 => 0.0,
            _ => float(sheet, at + 16),
        },
        rotor: usize::from(rotor),
    }
}

/// Runs a sheet: "as the same calls one after another". A float goes out as its bits, and a NaN,
/// which only a scale that was lent can be, as 7fc00000. The state has the sums of the last call's
/// motors (document 02, K7), and where no call is made those that were lent.
#[inline]
pub fn run(sheet: &[u8], state: &State, out: &mut [u8]) -> Ran {
    let (number, entry) = judge(sheet, out.len());
    if number != 0 {
        return Ran {
            number,
            entry,
            state: *state,
        };
    }
    let mut mixer = rust::mixer(state);
    for i in 0..count(sheet) {
        let [a, b, c, d] = rust::mix(&mut mixer, &call(sheet, i));
        let answer = [a, b, c, d, mixer.last_torque_scale()];
        for (j, x) in answer.iter().enumerate() {
            let at = ANSWER * i + 4 * j;
            out[at..at + 4].copy_from_slice(&bits(x).to_le_bytes());
        }
    }
    let state = match count(sheet) {
        0 => *state,
        _ => rust::state(&mixer),
    };
    Ran {
        number: 0,
        entry: 0,
        state,
    }
}

/// What `mixrun` prints when these bytes are its input. "Only the first 2,048 bytes count"; its
/// output has room for the most entries, so it never gives the number 9.
pub fn text(input: &[u8]) -> Vec<u8> {
    let sheet = &input[..input.len().min(READ)];
    let mut out = [0; ANSWER * MOST];
    let ran = run(sheet, &rust::state(&QuadMixer::new()), &mut out);
    if ran.number != 0 {
        return format!("refused {} at {}\n", ran.number, ran.entry).into_bytes();
    }
    let mut text = String::new();
    for i in 0..count(sheet) {
        let (kind, _, _) = entry(sheet, i);
        text += &format!("{i} {kind}");
        for at in [0, 4, 8, 12, 16] {
            let bits = float(&out, ANSWER * i + at).to_bits();
            text += &format!(" {bits:08x}");
        }
        text += "\n";
    }
    text.into_bytes()
}
