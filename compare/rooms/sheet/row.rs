//! A row of sheets: a side against the model.

use std::sync::atomic::{AtomicU64, Ordering};
use std::sync::Arc;

use comparing::inputs::Inputs;
use comparing::row::{row, Row};

use super::case::Case;
use super::model::Told;
use super::outcome::outcome;
use super::side::{Model, Side};

/// How often each number of the table was given by the model.
#[derive(Clone, Default)]
pub struct Given(Arc<[AtomicU64; 10]>);

impl Given {
    fn note(&self, (number, _): Told) {
        self.0[number as usize].fetch_add(1, Ordering::Relaxed);
    }

    /// Number by number.
    pub fn listed(&self) -> String {
        let each = self.0.iter().enumerate();
        let each = each.map(|(number, times)| {
            let times = times.load(Ordering::Relaxed);
            format!("{number}: {times}")
        });
        each.collect::<Vec<_>>().join(", ")
    }
}

/// A row: a side against the model, whose numbers are counted.
pub fn sheet_row(
    name: &str,
    inputs: Inputs<impl Fn(u64) -> Case + Sync + 'static>,
    ours: impl Side,
    given: &Given,
) -> Row {
    let given = given.clone();
    row(
        name,
        inputs,
        move |case| outcome(ours, case),
        move |case| {
            let right = outcome(Model, case);
            given.note(right.told);
            right
        },
    )
}
