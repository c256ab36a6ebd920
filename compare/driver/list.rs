//! Writes the lists that our programs replay: inputs, and the Rust's answers to them, or a model's
//! where the Rust has none. There is nothing of ours in this program. compare/run --list builds and
//! starts it.
//!
//!   list ROOT   writes under ROOT/crates/replay stdin, the list, and stdout, what `replay` is to
//!               print; and under ROOT what a capability has for lists of its own

use std::path::Path;
use std::process::ExitCode;
use std::{env, io};

use comparing::list::List;
use rooms::CAPABILITIES;

fn main() -> ExitCode {
    let words: Vec<String> = env::args().skip(1).collect();
    let [root] = &words[..] else {
        eprintln!("list: it takes the repository's root, and nothing else");
        return ExitCode::from(2);
    };
    if let Err(error) = write(Path::new(root)) {
        eprintln!("list: {root}: {error}");
        return ExitCode::from(2);
    }
    ExitCode::SUCCESS
}

fn write(root: &Path) -> io::Result<()> {
    let mut list = List::default();
    for room in CAPABILITIES {
        (room.list)(&mut list);
    }
    list.write(&root.join("crates/replay"))?;
    for room in CAPABILITIES {
        (room.own_lists)(root)?;
    }
    Ok(())
}
