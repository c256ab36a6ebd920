//! Runs the rows of a table one after another, prints a line for each, and counts.

use crate::row::{Row, Tally};

/// What the cases of rows are called where they are counted, and what wrong ones are.
#[derive(Clone, Copy, PartialEq)]
pub struct Counted {
    pub cases: &'static str,
    pub wrong: &'static str,
}

pub const ANSWERS: Counted = Counted {
    cases: "answers",
    wrong: "functions",
};

/// What rows come to, which can be added up.
pub trait Total {
    fn add(&mut self, other: Self);

    /// Prints the counts, and says whether they are as they have to be.
    fn show(&self, counted: Counted) -> bool;
}

// ---- ours

/// Rows that compare ours, and what is said before and after their lines.
#[derive(Default)]
pub struct Table {
    pub before: Option<String>,
    pub rows: Vec<Row>,
    pub after: Option<Box<dyn Fn() -> String>>,
}

impl From<Vec<Row>> for Table {
    fn from(rows: Vec<Row>) -> Table {
        Table {
            rows,
            ..Table::default()
        }
    }
}

/// How many were compared, and how many differ.
#[derive(Default)]
pub struct Compared {
    compared: u64,
    differ: u64,
}

impl Table {
    pub fn compare(&self, quick: bool) -> Compared {
        if let Some(text) = &self.before {
            println!("{text}");
        }
        let mut all = Compared::default();
        for row in &self.rows {
            let tally = run(row, quick, false);
            all.compared += tally.compared;
            all.differ += tally.differ;
        }
        if let Some(text) = &self.after {
            println!("{}", text());
        }
        all
    }
}

impl Total for Compared {
    fn add(&mut self, other: Compared) {
        self.compared += other.compared;
        self.differ += other.differ;
    }

    /// None may differ.
    fn show(&self, counted: Counted) -> bool {
        let Compared { compared, differ } = self;
        println!("{compared} {} compared, {differ} differ", counted.cases);
        *differ == 0
    }
}

// ---- wrong on purpose

/// Rows that are wrong on purpose, and if there is one their function with nothing wrong, which
/// shows that it is the wrongs that are noticed.
#[derive(Default)]
pub struct Wrong {
    pub right: Option<Row>,
    pub rows: Vec<Row>,
}

impl From<Vec<Row>> for Wrong {
    fn from(rows: Vec<Row>) -> Wrong {
        Wrong { right: None, rows }
    }
}

/// How many wrong ones there are, how many of them differ, and how often a right one does.
#[derive(Default)]
pub struct Noticed {
    wrong: u64,
    noticed: u64,
    falsely: u64,
}

impl Wrong {
    /// Compares the right one, and then each wrong one till it differs.
    pub fn notice(&self, quick: bool) -> Noticed {
        let mut all = Noticed::default();
        if let Some(right) = &self.right {
            all.falsely += run(right, quick, false).differ;
        }
        for row in &self.rows {
            all.wrong += 1;
            all.noticed += u64::from(0 < run(row, quick, true).differ);
        }
        all
    }
}

impl Total for Noticed {
    fn add(&mut self, other: Noticed) {
        self.wrong += other.wrong;
        self.noticed += other.noticed;
        self.falsely += other.falsely;
    }

    /// All wrong ones have to differ, and no right one may.
    fn show(&self, counted: Counted) -> bool {
        let Noticed { wrong, noticed, .. } = self;
        println!("{wrong} wrong {}, {noticed} noticed", counted.wrong);
        noticed == wrong && self.falsely == 0
    }
}

// ---- a row

/// Runs a row, and prints its line.
fn run(row: &Row, quick: bool, till_found: bool) -> Tally {
    let tally = row.run(cases(row, quick), till_found);
    show(row, &tally);
    tally
}

/// How many cases of a row are run.
fn cases(row: &Row, quick: bool) -> u64 {
    if quick {
        row.cases.min(1024).max(row.cases / 1024)
    } else {
        row.cases
    }
}

fn show(row: &Row, tally: &Tally) {
    let count = if tally.compared == row.cases {
        format!("{}", row.cases)
    } else {
        format!("the first {} of {}", tally.compared, row.cases)
    };
    println!(
        "{}: {count}, {}: {} differ",
        row.name, row.kinds, tally.differ
    );
    for (_, text) in &tally.first {
        println!("    {text}");
    }
}
