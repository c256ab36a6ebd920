//! The Rust's side, where the number of rows is a part of the mixer's type.

use relay_mix_multi::{hex_x, octo_coax, Mixer};

use comparing::inputs::LENT;

use super::inputs::{After, Lent, MOST, MOST_LENT};
use crate::frames::frame::Wrench;
use crate::frames::rust::rows_of;

/// A wrench as the Rust takes it.
pub fn wrench(&[thrust, roll, pitch, yaw]: &Wrench) -> relay_mix_multi::Wrench {
    relay_mix_multi::Wrench {
        thrust,
        roll,
        pitch,
        yaw,
    }
}

pub fn hex_x_mix(w: &Wrench) -> [f32; 6] {
    hex_x().mix(wrench(w))
}

pub fn octo_coax_mix(w: &Wrench) -> [f32; 8] {
    octo_coax().mix(wrench(w))
}

// ---- rows that are lent

/// The mix of M rows that are lent, into M outputs.
fn mix_rows<const M: usize>(rows: &[f32], w: &Wrench, out: &mut [f32]) {
    let mixer = Mixer::<M>::new(rows_of(rows));
    out.copy_from_slice(&mixer.mix(wrench(w)));
}

/// The mix of a number of rows that is known only when it runs.
type MixRows = fn(&[f32], &Wrench, &mut [f32]);

macro_rules! mix_rows_of {
    ($($m:literal)*) => { [$(mix_rows::<$m>),*] };
}

/// The mix at each number of rows, from none on.
const MIX_ROWS: [MixRows; MOST + 1] = mix_rows_of![
    0 1 2 3 4 5 6 7 8 9 10 11 12 13 14 15 16 17 18 19 20 21 22 23 24 25 26 27 28 29 30 31 32
    33 34 35 36 37 38 39 40 41 42 43 44 45 46 47 48 49 50 51 52 53 54 55 56 57 58 59 60 61 62 63 64
];

/// The outputs of a mix, at most 64.
pub fn mix(l: &Lent) -> After {
    let mut out = [LENT; MOST_LENT];
    MIX_ROWS[l.outputs](l.rows(), &l.wrench, &mut out[..l.outputs]);
    (0, out)
}
