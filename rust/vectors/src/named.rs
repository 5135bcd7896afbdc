//! The tables by their names: sound samples and damaged ones.

use model::damage::damaged;
use model::tables::{nine_pieces, placed, samples};
use model::TABLE_WORDS;

/// A table, and the name of the table that it is a change of.
#[derive(Clone)]
pub struct Named {
    pub name: String,
    pub base: String,
    pub words: Vec<u32>,
}

/// All of them. The base of a sample is the table of zeros, and so is that of
/// a table made by hand.
pub fn all() -> Vec<Named> {
    let mut list: Vec<Named> = samples()
        .into_iter()
        .map(|(name, words)| named(name, "zeros", words))
        .collect();
    list.extend(special());
    list.extend(damaged().into_iter().map(|table| {
        let base = match table.base {
            "hand-made" => "zeros",
            base => base,
        };
        named(&table.name(), base, table.words)
    }));
    list
}

fn named(name: &str, base: &str, words: Vec<u32>) -> Named {
    Named {
        name: name.to_string(),
        base: base.to_string(),
        words,
    }
}

/// Slices too short, and words after the table.
fn special() -> Vec<Named> {
    let nine = placed(&nine_pieces());
    let mut longer = nine.clone();
    longer.extend([1, u32::MAX]);
    vec![
        named("zeros", "zeros", vec![0; TABLE_WORDS]),
        named("no-words", "zeros", vec![]),
        named("zeros-one-word-short", "zeros", vec![0; TABLE_WORDS - 1]),
        named("zeros-words-after", "zeros", zeros_and_one()),
        named(
            "nine-one-word-short",
            "nine",
            nine[..TABLE_WORDS - 1].to_vec(),
        ),
        named("nine-words-after", "nine", longer),
    ]
}

fn zeros_and_one() -> Vec<u32> {
    let mut words = vec![0; TABLE_WORDS];
    words.push(1);
    words
}

pub fn find(name: &str) -> Option<Named> {
    all().into_iter().find(|table| table.name == name)
}
