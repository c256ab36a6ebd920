//! Compares the two crates of bindings/rust with the Rust that they stand in the place of, function
//! by function, by bits, a NaN matching any NaN; the module `thrust_floor` with the Rust's quad;
//! and the module `sheet` with the model of compare/rooms. bindings/rust/test builds and starts it.
//!
//!   --wrong   turns a bit of our answers now and then: each function has to be noticed
//!
//! Exit status 0: no answer differs; with --wrong: each wrong function was noticed.
//!
//! What is compared stands in a file for each group of functions: a new one is a new file, and a
//! line here. The comparing loop is that of compare/comparing, and the inputs and the model of the
//! sheet are those of compare/rooms.

mod compared;
mod sides;

use std::process::ExitCode;

use comparing::row::Row;
use comparing::table::{Table, Total, Wrong, ANSWERS};

/// The files of what is compared, and the rows of all of them.
macro_rules! files {
    ($($file:ident,)*) => {
        $(mod $file;)*

        fn rows(wrong: bool) -> Vec<Row> {
            [$($file::rows(wrong)),*].into_iter().flatten().collect()
        }
    };
}

// The order is that in which they are printed.
files! {
    quad,
    mixer_n,
    mixer,
    thrust_floor,
    sheet,
}

fn main() -> ExitCode {
    let mut wrong = false;
    for word in std::env::args().skip(1) {
        match word.as_str() {
            "--wrong" => wrong = true,
            _ => {
                eprintln!("test: unknown word {word}");
                return ExitCode::from(2);
            }
        }
    }
    let rows = rows(wrong);
    let good = if wrong {
        Wrong::from(rows).notice(false).show(ANSWERS)
    } else {
        Table::from(rows).compare(false).show(ANSWERS)
    };
    if good {
        ExitCode::SUCCESS
    } else {
        ExitCode::FAILURE
    }
}
