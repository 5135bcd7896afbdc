//! Outputs that fill a buffer many times.

use crate::{random, Compared, Feed, Outcome};
use vectors::jobs;

/// Twice what a pipe or an output buffer of the usual sizes holds.
const LARGE: usize = 128 * 1024;

const SEEDS: std::ops::Range<u64> = 9_000..9_008;

pub fn large_outputs(compared: &mut Compared) -> Outcome {
    let feeds = [Feed::Whole, Feed::Parts(4_097)];
    for (name, words) in jobs::large() {
        compared.job(name, &jobs::bytes(&words), &feeds)?;
    }
    for seed in SEEDS {
        let name = format!("by chance, large, seed {seed}");
        let printed = compared.job(&name, &random::large(seed), &feeds)?;
        assert!(printed > LARGE, "{name} prints {printed} bytes");
    }
    Ok(())
}
