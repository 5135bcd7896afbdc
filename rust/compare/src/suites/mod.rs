//! The cases to try, in suites. The quick ones stand first.

use crate::{Compared, Outcome};

mod answers;
mod clauses;
mod configurations;
mod lengths;
mod nearest;
mod outlines;
mod refusals;
mod sound;
mod tiles;
mod turning;
mod unsound;

/// A suite: its name and what it does.
pub type Suite = (&'static str, fn(&mut Compared) -> Outcome);

pub const SUITES: [Suite; 17] = [
    ("clauses", clauses::clauses),
    ("front", answers::front),
    ("outlines", outlines::outlines),
    ("damaged tables", unsound::damaged),
    ("tiles", tiles::tiles),
    ("turning", turning::turning),
    ("configurations", configurations::configurations),
    ("lengths", lengths::lengths),
    ("answers", answers::answers),
    ("refusals", refusals::refusals),
    ("nearest", nearest::nearest),
    ("turned lays", turning::turned_lays),
    ("samples", sound::samples),
    ("placed tables", sound::placed),
    ("built tables", sound::built),
    ("one word changed", unsound::one_word),
    ("random words", unsound::random_words),
];

/// Runs the suite of this name.
pub fn run(name: &str, compared: &mut Compared) -> Outcome {
    let suite = SUITES.iter().find(|suite| suite.0 == name);
    let (_, run) = suite.expect("a suite of this name");
    run(compared)
}

/// Runs all suites, up to the first difference.
pub fn run_all(compared: &mut Compared) -> Outcome {
    SUITES.iter().try_for_each(|(_, run)| run(compared))
}

/// The seeds of all suites, to be printed with their results.
pub fn seeds() -> String {
    let seeds = [
        clauses::SEED,
        lengths::SEED,
        refusals::SEED,
        answers::SEED,
        configurations::SEED,
        sound::PLACED_SEED,
        sound::BUILT_SEED,
        sound::SAMPLES_SEED,
        unsound::DAMAGED_SEED,
        unsound::ONE_WORD_SEED,
        unsound::RANDOM_SEED,
        outlines::SEED,
        tiles::SEED,
        turning::SEED,
        turning::LAYS_SEED,
        nearest::SEED,
    ];
    format!("seeds {seeds:?}")
}
