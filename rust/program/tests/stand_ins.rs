//! The suites can fail: each fault of `stand_in` is noticed by the suites that
//! are there for it, and no suite has anything against `stand_in` alone.

use program::suites::{large_outputs, pipe_in_parts, random_jobs, Suite, SUITES};
use program::{Compared, Feed, Outcome, Program};
use std::time::Duration;

/// Faults of reading, which `pipe_in_parts` must notice.
const READING: [&str; 4] = [
    "reads only once",
    "stops at a short read",
    "takes 65,537 bytes as good",
    "takes 65,536 bytes as bad",
];

/// Faults of writing, which `large_outputs` must notice.
const WRITING: [&str; 5] = [
    "loses all but the last buffer",
    "loses the last buffer",
    "writes earlier buffers to standard error",
    "stops at 64 KiB",
    "stops at 128 KiB",
];

/// Faults that every suite must notice.
const ANYWHERE: [&str; 2] = ["ends with status 1", "writes a line to standard error"];

/// Faults that every suite must notice, by the time limit.
const HANGING: [&str; 2] = ["hangs before it reads", "hangs at the end"];

fn stand_in() -> Program {
    Program::new(env!("CARGO_BIN_EXE_stand_in"))
}

fn tried(suite: Suite, program: &Program) -> Outcome {
    suite(&mut Compared::new(program))
}

/// What the suite says against the program.
fn noticed(suite: Suite, fault: &str, program: Program) -> String {
    match tried(suite, &program.with(fault)) {
        Ok(()) => panic!("not noticed: a program that {fault}"),
        Err(difference) => {
            println!("{fault}\n    {difference}");
            difference
        }
    }
}

#[test]
fn no_fault() {
    for suite in SUITES {
        tried(suite, &stand_in()).expect("nothing is wrong");
    }
}

#[test]
fn faults_of_reading() {
    for fault in READING {
        noticed(pipe_in_parts, fault, stand_in());
    }
}

#[test]
fn faults_of_writing() {
    for fault in WRITING {
        noticed(large_outputs, fault, stand_in());
    }
}

#[test]
fn other_faults() {
    for fault in ANYWHERE {
        for suite in SUITES {
            noticed(suite, fault, stand_in());
        }
    }
}

/// Chance too meets an output of more than a buffer.
#[test]
fn faults_of_writing_by_chance() {
    noticed(random_jobs, "loses all but the last buffer", stand_in());
}

fn hurried() -> Program {
    stand_in().within(Duration::from_millis(300))
}

#[test]
fn a_program_that_hangs_is_ended() {
    for fault in HANGING {
        for suite in SUITES {
            let difference = noticed(suite, fault, hurried());
            assert!(difference.contains("did not end within"), "{difference}");
        }
    }
}

/// Neither does it keep the one who writes to it.
#[test]
fn a_full_pipe_does_not_hang() {
    let hanging = hurried().with("hangs before it reads");
    assert!(hanging.run(&[0; 400_000], Feed::Whole).is_err());
}

#[test]
fn a_program_that_is_missing_is_said_so() {
    let missing = Program::new("no such program");
    let difference = tried(pipe_in_parts, &missing).expect_err("it is missing");
    assert!(difference.contains("does not start"), "{difference}");
}
