//! A solution that is wrong on purpose, in the place of ours. It follows `det3` and `solve3` of
//! relay-mix-quad (Apache-2.0), but for the one change.

use comparing::row::row;
use comparing::table::Wrong;

use super::inputs::{systems, System};
use super::rust;

pub fn wrong() -> Wrong {
    vec![row(
        "solve3, a cofactor's sign",
        systems(),
        solve3,
        rust::solve3,
    )]
    .into()
}

/// Wrong in the second cofactor, which is to be subtracted.
fn det3(a: &[[f32; 3]; 3]) -> f32 {
    a[0][0] * (a[1][1] * a[2][2] - a[1][2] * a[2][1])
        + a[0][1] * (a[1][0] * a[2][2] - a[1][2] * a[2][0])
        + a[0][2] * (a[1][0] * a[2][1] - a[1][1] * a[2][0])
}

/// Cramer's rule over the wrong determinant.
fn solve3(s: &System) -> (bool, [f32; 3]) {
    let rows = s.rows();
    let det = det3(&rows);
    if !det.is_finite() || det.abs() < 1.0e-6 {
        return (false, [0.0; 3]);
    }
    let x = [0, 1, 2].map(|k| {
        let mut changed = rows;
        for (row, right) in changed.iter_mut().zip(s.rhs) {
            row[k] = right;
        }
        det3(&changed) / det
    });
    (true, x)
}
