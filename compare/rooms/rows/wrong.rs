//! Functions of 001's mixer that are wrong on purpose, in the place of ours. Each follows the
//! function of relay-mix-multi that it is named after (Apache-2.0), but for the one change.

use relay_mix_multi::clamp01;
use relay_mix_quad::passed_on::sanitise;

use comparing::inputs::LENT;
use comparing::row::row;
use comparing::table::Wrong;

use super::inputs::{lent_at_any_length, lent_rows, After, Lent, MOST_LENT};
use super::{model, rust};
use crate::frames::frame::{sum, Wrench};
use crate::frames::inputs::wrenches;
use crate::frames::rust::hex_x_run;

pub fn wrong() -> Wrong {
    let rows = vec![
        row(
            "Mixer::mix of 001, treated sums",
            lent_rows(),
            treated_sums,
            rust::mix,
        ),
        row(
            "Mixer::mix of 001, zeros written by a refused call",
            lent_at_any_length(),
            zeros_of_a_refusal,
            model::mix_or_refuse,
        ),
        row(
            "hex_x, mix, the sign of one pitch",
            wrenches(),
            hex_x_with_a_sign,
            rust::hex_x_mix,
        ),
    ];
    rows.into()
}

/// Wrong where a sum is +infinity: nothing is to be treated.
fn treated_sums(l: &Lent) -> After {
    let mut out = [LENT; MOST_LENT];
    for (to, row) in out.iter_mut().zip(l.rows().chunks_exact(4)) {
        *to = clamp01(sanitise(sum(row, &l.wrench)));
    }
    (0, out)
}

/// Wrong where a call is refused: its outputs are to be left.
fn zeros_of_a_refusal(l: &Lent) -> After {
    let (number, mut out) = model::mix_or_refuse(l);
    if number != 0 {
        out[..l.outputs].fill(0.0);
    }
    (number, out)
}

/// Wrong in the third rotor's pitch, which is to be -0.866.
fn hex_x_with_a_sign(w: &Wrench) -> [f32; 6] {
    let mut run = hex_x_run();
    run[10] = -run[10];
    let mut out = [0.0; 6];
    for (to, row) in out.iter_mut().zip(run.chunks_exact(4)) {
        *to = clamp01(sum(row, w));
    }
    out
}
