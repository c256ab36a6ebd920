//! Compares our functions with the Rust's by running both, and those that the Rust has not with a
//! model of each: what compare/rooms has. compare/run builds and starts it.
//!
//!   --quick   the first 1024th of every row, and at least 1024 cases where it has as many
//!   --sheets   the command sheet alone: a capability whose cases have a name of their own
//!   --wrong   functions and sheet runners that are wrong on purpose, in the place of ours
//!   --findings   the findings of docs/DIFFERENCES.md, on the Rust alone
//!
//! Exit status 0: no answer and no sheet differs; with --wrong: each wrong one was noticed; with
//! --findings: each answer is the stated one.

mod findings;

use std::process::ExitCode;

use comparing::capability::Capability;
use comparing::table::{Counted, Total};
use rooms::CAPABILITIES;

fn main() -> ExitCode {
    let (mut quick, mut wrong, mut findings) = (false, false, false);
    let mut alone = None;
    for word in std::env::args().skip(1) {
        match word.as_str() {
            "--quick" => quick = true,
            "--wrong" => wrong = true,
            "--findings" => findings = true,
            other => {
                alone = counted_as(other);
                if alone.is_none() {
                    eprintln!("compare: unknown word {word}");
                    return ExitCode::from(2);
                }
            }
        }
    }
    let good = if findings {
        findings::run()
    } else if wrong {
        total(alone, |room| (room.wrong)().notice(quick))
    } else {
        total(alone, |room| (room.table)().compare(quick))
    };
    if good {
        ExitCode::SUCCESS
    } else {
        ExitCode::FAILURE
    }
}

/// What is counted as a word says, `--sheets` as sheets.
fn counted_as(word: &str) -> Option<Counted> {
    let mut all = CAPABILITIES.iter().map(|room| room.counted);
    all.find(|counted| word.strip_prefix("--") == Some(counted.cases))
}

/// Runs every capability, or those alone that are counted so, and then prints what they come to,
/// for all that are counted alike together: what was run first comes last. Says whether all is
/// good.
fn total<T: Total>(alone: Option<Counted>, run: impl Fn(&Capability) -> T) -> bool {
    let mut totals: Vec<(Counted, T)> = Vec::new();
    let asked = |room: &&Capability| alone.is_none_or(|counted| room.counted == counted);
    for room in CAPABILITIES.iter().filter(asked) {
        let new = run(room);
        match totals.iter_mut().find(|held| held.0 == room.counted) {
            Some((_, held)) => held.add(new),
            None => totals.push((room.counted, new)),
        }
    }
    let each = totals.iter().rev();
    each.fold(true, |good, (counted, total)| total.show(*counted) && good)
}
