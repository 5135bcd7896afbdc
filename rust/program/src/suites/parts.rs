//! Input that comes in several reads, and input at the very limit.

use crate::{Compared, Feed, Outcome};
use vectors::jobs;

/// Jobs of `vectors`, small ones first, good and bad.
const NAMES: [&str; 18] = [
    "example",
    "two-empty-sections",
    "nothing-found",
    "refused-each-way",
    "no-bytes",
    "three-bytes",
    "nine-bytes",
    "one-count",
    "a-word-more",
    "half-a-piece",
    "half-a-query",
    "half-a-clause",
    "clauses-wrap-to-one",
    "65535-bytes",
    "65536-bytes",
    "65537-bytes",
    "65540-bytes",
    "refused",
];

/// Odd sizes, so that words are cut, up to some above a page of memory.
const SIZES: [usize; 5] = [1, 3, 7, 1_021, 4_097];

pub fn pipe_in_parts(compared: &mut Compared) -> Outcome {
    let jobs = jobs::all();
    for name in NAMES {
        let job = jobs.iter().find(|job| job.0 == name);
        let (_, bytes) = job.expect("a job of this name");
        compared.job(name, bytes, &feeds(bytes.len()))?;
    }
    // More than a pipe holds, so that its end is never read.
    let endless = vec![0; 400_000];
    compared.job("of 400,000 zeros", &endless, &feeds(endless.len()))?;
    Ok(())
}

/// Parts that are smaller than the whole, and the whole.
fn feeds(length: usize) -> Vec<Feed> {
    let parts = SIZES.into_iter().filter(|&size| size < length);
    parts.map(Feed::Parts).chain([Feed::Whole]).collect()
}
