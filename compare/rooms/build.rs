//! Links the two archives of ours, which stand in the folder that compare/run names in ARCHIVES,
//! again whenever they change. Without the feature `ours` there is nothing to link.

use std::env;

fn main() {
    println!("cargo:rerun-if-env-changed=ARCHIVES");
    if env::var_os("CARGO_FEATURE_OURS").is_none() {
        return;
    }
    let folder = env::var("ARCHIVES").expect("ARCHIVES names the folder of our archives");
    println!("cargo:rustc-link-search=native={folder}");
    for name in ["exported", "probes"] {
        println!("cargo:rerun-if-changed={folder}/lib{name}.a");
        println!("cargo:rustc-link-lib=static={name}");
    }
}
