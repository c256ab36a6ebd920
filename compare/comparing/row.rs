//! The comparing loop. It is the same for every row of a table: make input n, ask both sides, and
//! compare the two answers by bits.

use std::ops::Range;
use std::sync::atomic::{AtomicBool, AtomicU64, Ordering};
use std::thread;

use crate::answer::Answer;
use crate::hex::Hex;
use crate::inputs::Inputs;

/// One function: its inputs, and how many answers of a range of cases differ.
pub struct Row {
    pub name: String,
    pub kinds: String,
    pub cases: u64,
    compare: Box<dyn Fn(Range<u64>, &mut Tally) + Sync>,
}

/// A row of a table: both sides of a function, and the inputs that it is compared on.
pub fn row<I: Hex, A: Answer>(
    name: impl Into<String>,
    inputs: Inputs<impl Fn(u64) -> I + Sync + 'static>,
    ours: impl Fn(&I) -> A + Sync + 'static,
    rust: impl Fn(&I) -> A + Sync + 'static,
) -> Row {
    let make = inputs.make;
    Row {
        name: name.into(),
        kinds: inputs.kinds,
        cases: inputs.cases,
        compare: Box::new(move |cases, tally| {
            tally.compared += cases.end - cases.start;
            for n in cases {
                let input = make(n);
                let (a, b) = (ours(&input), rust(&input));
                if !a.same(&b) {
                    tally.note(n, || format!("at {}: {}", input.hex(), a.both(&b)));
                }
            }
        }),
    }
}

/// How many answers were compared, how many differ, and the first few that do, by case number.
#[derive(Default)]
pub struct Tally {
    pub compared: u64,
    pub differ: u64,
    pub first: Vec<(u64, String)>,
}

/// How many differences of a row are shown.
const SHOWN: usize = 4;

/// How many cases a thread takes at a time.
const PORTION: u64 = 1 << 18;

impl Tally {
    fn note(&mut self, n: u64, text: impl Fn() -> String) {
        self.differ += 1;
        if self.first.len() < SHOWN {
            self.first.push((n, text()));
        }
    }

    /// Both together. Each thread takes portions in rising order, so the lowest of each are enough.
    fn with(mut self, other: Tally) -> Tally {
        self.compared += other.compared;
        self.differ += other.differ;
        self.first.extend(other.first);
        self.first.sort();
        self.first.truncate(SHOWN);
        self
    }
}

impl Row {
    /// Runs the first cases of the row on all cores: to the end, or till a difference is found.
    pub fn run(&self, cases: u64, till_found: bool) -> Tally {
        let next = AtomicU64::new(0);
        let found = AtomicBool::new(false);
        let work = || {
            let mut tally = Tally::default();
            while !(till_found && found.load(Ordering::Relaxed)) {
                let from = next.fetch_add(PORTION, Ordering::Relaxed);
                if cases <= from {
                    break;
                }
                (self.compare)(from..cases.min(from + PORTION), &mut tally);
                found.fetch_or(0 < tally.differ, Ordering::Relaxed);
            }
            tally
        };
        let cores = thread::available_parallelism().map_or(1, |n| n.get());
        thread::scope(|scope| {
            let all: Vec<_> = (0..cores).map(|_| scope.spawn(work)).collect();
            all.into_iter()
                .map(|one| one.join().expect("a comparing thread ended early"))
                .fold(Tally::default(), Tally::with)
        })
    }
}
