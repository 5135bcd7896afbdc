//! The program finder beside the model, in every suite.

use program::suites::{self, Suite};
use program::{Compared, Program};
use std::path::Path;

fn finder() -> Program {
    // Not env!: where a built tree was copied, that would still name the first one.
    let here = std::env::var_os("CARGO_MANIFEST_DIR").expect("cargo says where this crate is");
    let path = Path::new(&here).join("../../target/bin/finder");
    assert!(
        path.is_file(),
        "{} is missing: make it with `tools/build finder` at the root of the project first",
        path.display()
    );
    Program::new(path)
}

fn run(suite: Suite) {
    let finder = finder();
    let mut compared = Compared::new(&finder);
    if let Err(difference) = suite(&mut compared) {
        panic!("target/bin/finder, {difference}");
    }
    println!("{} runs compared", compared.runs);
}

#[test]
fn pipe_in_parts() {
    run(suites::pipe_in_parts);
}

#[test]
fn large_outputs() {
    run(suites::large_outputs);
}

#[test]
fn random_jobs() {
    run(suites::random_jobs);
}
