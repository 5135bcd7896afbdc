//! Every fault is noticed.

use compare::{suites, Calls, Compared};
use std::panic::{catch_unwind, AssertUnwindSafe};

/// The suite that notices a fault, and what it says.
fn noticed(faulty: &dyn Calls) -> Option<(&'static str, String)> {
    suites::SUITES.iter().find_map(|&(suite, run)| {
        let mut compared = Compared::new(faulty);
        let outcome = catch_unwind(AssertUnwindSafe(|| run(&mut compared)));
        match outcome {
            Ok(Ok(())) => None,
            Ok(Err(difference)) => Some((suite, format!("{difference:?}"))),
            Err(_) => Some((suite, "it panics".to_string())),
        }
    })
}

/// The faults that no suite notices, among those at places `first`, `first +
/// step` and so on.
fn unnoticed(first: usize, step: usize) -> Vec<&'static str> {
    let mut unnoticed = Vec::new();
    for (name, faulty) in faults::all().into_iter().skip(first).step_by(step) {
        match noticed(&*faulty) {
            Some((suite, how)) => println!("{name}\n    {suite}: {how}"),
            None => unnoticed.push(name),
        }
    }
    unnoticed
}

#[test]
fn every_fault_is_noticed() {
    // A fault may well panic; that is noticed too, and need not be shown.
    std::panic::set_hook(Box::new(|_| {}));
    let threads = std::thread::available_parallelism().map_or(1, usize::from);
    let unnoticed: Vec<&str> = std::thread::scope(|scope| {
        let running: Vec<_> = (0..threads)
            .map(|first| scope.spawn(move || unnoticed(first, threads)))
            .collect();
        let ended = running.into_iter();
        ended.flat_map(|thread| thread.join().unwrap()).collect()
    });
    let _ = std::panic::take_hook();
    println!("{} faults, {}", faults::all().len(), suites::seeds());
    assert!(unnoticed.is_empty(), "not noticed: {unnoticed:?}");
}
