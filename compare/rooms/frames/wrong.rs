//! Functions of `MixerN` that are wrong on purpose, in the place of ours. Each follows the function
//! of relay-mix-quad that it is named after (Apache-2.0), but for the one change.

use relay_mix_quad::passed_on::{clamp_floor, sanitise};

use comparing::row::row;
use comparing::table::Wrong;

use super::frame::{sum, Frame, Wrench};
use super::inputs::{frame_calls, frame_motors, frames, ANY_ROWS, ROTOR_ROWS};
use super::rust;

pub fn wrong() -> Wrong {
    let rows = vec![
        row(
            "MixerN::new, a count over 8 kept",
            frames(),
            |f| *f,
            rust::new,
        ),
        row(
            "MixerN::mix, rows past the count as zero",
            frame_calls(ROTOR_ROWS),
            rows_past_the_count_as_zero,
            rust::mix,
        ),
        row(
            "MixerN::mix, sums not treated",
            frame_calls(ANY_ROWS),
            sums_not_treated,
            rust::mix,
        ),
        row(
            "MixerN::achieved_wrench, sums from the first product",
            frame_motors(ROTOR_ROWS),
            wrench_from_the_first_product,
            rust::achieved_wrench,
        ),
        row(
            "MixerN::achieved_wrench, treated rows",
            frame_motors(ANY_ROWS),
            wrench_of_treated_rows,
            rust::achieved_wrench,
        ),
    ];
    rows.into()
}

/// Wrong where a row past the count is not zero: the count is to play no part.
fn rows_past_the_count_as_zero((f, w): &(Frame, Wrench)) -> [f32; 8] {
    let mut f = *f;
    let end = f.run.len();
    f.run[end.min(f.count.saturating_mul(4))..].fill(0.0);
    rust::mix(&(f, *w))
}

/// Wrong where a sum is not finite, which is to be +0 before the largest is taken; plain leaves it.
fn sums_not_treated((f, w): &(Frame, Wrench)) -> [f32; 8] {
    let w = w.map(sanitise);
    let mut sums = [0.0; 8];
    for (to, row) in sums.iter_mut().zip(f.run.chunks_exact(4)) {
        *to = sum(row, &w);
    }
    let larger = |held: f32, x: f32| if held < x { x } else { held };
    let most = sums.into_iter().reduce(larger).unwrap_or(0.0);
    sums.map(|x| {
        let x = if 1.0 < most { x - (most - 1.0) } else { x };
        clamp_floor(x, 0.0)
    })
}

/// Wrong where every product is -0: a sum is to start from +0.
fn wrench_from_the_first_product((f, motors): &(Frame, [f32; 8])) -> Wrench {
    [0, 1, 2, 3].map(|k| {
        let rows = f.run.chunks_exact(4);
        let products = rows.zip(motors).map(|(row, m)| row[k] * sanitise(*m));
        products.reduce(|held, x| held + x).unwrap_or(0.0)
    })
}

/// Wrong where a row has an infinity or a NaN: only the motors are to be treated.
fn wrench_of_treated_rows((f, motors): &(Frame, [f32; 8])) -> Wrench {
    let run = f.run.map(sanitise);
    rust::achieved_wrench(&(Frame { run, ..*f }, *motors))
}
