//! Links the finder's C archive, which is made beforehand:
//! `target/staticlib/libfinder_c.a` under the root of the project.

use std::env;
use std::path::PathBuf;

fn main() {
    let here = env::var_os("CARGO_MANIFEST_DIR").expect("cargo says where the crate is");
    let directory = PathBuf::from(here).join("../../target/staticlib");
    let archive = directory.join("libfinder_c.a");
    println!("cargo::rerun-if-changed={}", archive.display());
    if !archive.is_file() {
        println!(
            "cargo::error=the archive {} is missing: make the crate finder_c first",
            archive.display()
        );
        return;
    }
    println!("cargo::rustc-link-search=native={}", directory.display());
    println!("cargo::rustc-link-lib=static=finder_c");
}
