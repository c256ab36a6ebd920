//! The build script of both crates: links the archive libexported.a.
//!
//! The archive stands in the folder that FOOTSPANDLE_LIB names, or else in target/staticlib at the
//! repository's root, where it is x86-64 code.

use std::env;
use std::path::{Path, PathBuf};
use std::process::exit;

const ARCHIVE: &str = "libexported.a";

/// Ends the build with what is wrong and what to do.
fn refuse(why: String) -> ! {
    eprintln!("footspandle: {why}");
    eprintln!(
        "footspandle: run `compare/archive exported` at the root of Footspandle's repository, \
         and set FOOTSPANDLE_LIB to the folder that it prints"
    );
    exit(1)
}

fn variable(name: &str) -> String {
    env::var(name).unwrap_or_else(|_| refuse(format!("{name} is not set: this is cargo's to run")))
}

/// The folder of the archive, and how it was found.
fn folder() -> (PathBuf, &'static str) {
    if let Some(named) = env::var_os("FOOTSPANDLE_LIB") {
        let named = PathBuf::from(named);
        if !named.is_absolute() {
            // Cargo runs this in the crate's folder, and the linker in another.
            refuse(format!(
                "FOOTSPANDLE_LIB is '{}', and not an absolute path",
                named.display()
            ));
        }
        return (named, "which FOOTSPANDLE_LIB names");
    }
    let arch = variable("CARGO_CFG_TARGET_ARCH");
    if arch != "x86_64" {
        refuse(format!(
            "the target is {arch}, the archive in target/staticlib is x86-64 code, \
             and FOOTSPANDLE_LIB is not set"
        ));
    }
    let built = Path::new(&variable("CARGO_MANIFEST_DIR")).join("../../../target/staticlib");
    (built, "and FOOTSPANDLE_LIB is not set")
}

fn main() {
    println!("cargo:rerun-if-env-changed=FOOTSPANDLE_LIB");
    let (folder, found) = folder();
    let archive = folder.join(ARCHIVE);
    println!("cargo:rerun-if-changed={}", archive.display());
    if !archive.is_file() {
        refuse(format!(
            "there is no {ARCHIVE} in {}, {found}",
            folder.display()
        ));
    }
    println!("cargo:rustc-link-search=native={}", folder.display());
    println!("cargo:rustc-link-lib=static=exported");
}
