//! Tables that are not sound: damaged ones, sound ones with one word changed,
//! random words.

use crate::{cases, Compared, Outcome};
use model::damage;
use model::pages::{first_word, level, page_count};
use model::random::Random;
use model::sizes::{EDGE, ENTRY_WORDS, FIRST_ENTRY_WORD, PAGE_WORDS};
use model::tables::{samples, Family};
use model::{Rect, PAGES, TABLE_WORDS};

pub const DAMAGED_SEED: u64 = 109;
pub const ONE_WORD_SEED: u64 = 110;
pub const RANDOM_SEED: u64 = 111;

/// Every call but empty refuses a damaged table and changes nothing.
pub fn damaged(compared: &mut Compared) -> Outcome {
    let mut random = Random::new(DAMAGED_SEED);
    for mut damaged in damage::damaged() {
        compared.case(format!("{}, seed {DAMAGED_SEED}", damaged.name()));
        assert_eq!(compared.check(&damaged.words)?, (6, 0));
        all_calls(compared, &mut damaged.words, &mut random)?;
    }
    Ok(())
}

fn all_calls(compared: &mut Compared, table: &mut [u32], random: &mut Random) -> Outcome {
    let rect = Family::Tiny.rect(0, random);
    let clauses = cases::clauses(random);
    compared.query(table, rect, &clauses, 1024)?;
    compared.opened_pages(table, rect, &clauses, 341)?;
    compared.nearest_piece(table, rect.x1, rect.y2, 341)?;
    compared.place(table, random.below(1030), rect)?;
    compared.place(table, random.below(1030), cases::spoilt(rect, random))?;
    Ok(())
}

/// The kinds of words of a table.
#[derive(Clone, Copy, Debug)]
enum Kind {
    PageCount,
    Root,
    PieceCount,
    Level,
    EntryCount,
    Bounds,
    Child,
    PieceRect,
    PieceNumber,
    AfterEntries,
    AfterPages,
    AfterTable,
}

const KINDS: [Kind; 12] = [
    Kind::PageCount,
    Kind::Root,
    Kind::PieceCount,
    Kind::Level,
    Kind::EntryCount,
    Kind::Bounds,
    Kind::Child,
    Kind::PieceRect,
    Kind::PieceNumber,
    Kind::AfterEntries,
    Kind::AfterPages,
    Kind::AfterTable,
];

/// The kind of a word of a sound table.
fn kind(table: &[u32], word: usize) -> Kind {
    match word {
        0 => return Kind::PageCount,
        1 => return Kind::Root,
        2 => return Kind::PieceCount,
        TABLE_WORDS.. => return Kind::AfterTable,
        _ => {}
    }
    let page = ((word - 3) / PAGE_WORDS) as u32;
    if page >= page_count(table) {
        return Kind::AfterPages;
    }
    match word - first_word(page) {
        0 => Kind::Level,
        1 => Kind::EntryCount,
        word => kind_in_entries(table, page, word - FIRST_ENTRY_WORD),
    }
}

fn kind_in_entries(table: &[u32], page: u32, word: usize) -> Kind {
    let entries = model::pages::entry_count(table, page) as usize;
    let is_r = word % ENTRY_WORDS == 4;
    if word / ENTRY_WORDS >= entries {
        return Kind::AfterEntries;
    }
    match (level(table, page) == 0, is_r) {
        (true, true) => Kind::PieceNumber,
        (true, false) => Kind::PieceRect,
        (false, true) => Kind::Child,
        (false, false) => Kind::Bounds,
    }
}

/// Another value for a word, near or far.
fn other_value(table: &[u32], value: u32, random: &mut Random) -> u32 {
    match random.below(12) {
        0 => value.wrapping_add(1),
        1 => value.wrapping_sub(1),
        2 => 0,
        3 => u32::MAX,
        4 => value ^ 1 << random.below(32),
        5 => value.wrapping_add(1 << 31),
        6 => random.below(PAGES as u32 + 2),
        7 => random.below(1026),
        8 => EDGE + random.below(2),
        9 => random.below(10),
        10 => *random.pick(table),
        _ => random.word(),
    }
}

/// Sound tables with one word changed, of each kind of word. Some are still
/// sound: a piece number may become another, a word after the table anything.
pub fn one_word(compared: &mut Compared) -> Outcome {
    let mut random = Random::new(ONE_WORD_SEED);
    for (name, mut table) in samples() {
        table.resize_with(TABLE_WORDS + 50, || 9);
        for wanted in KINDS {
            let words: Vec<usize> = (0..table.len())
                .filter(|&word| kind(&table, word) as u8 == wanted as u8)
                .collect();
            for _ in 0..if words.is_empty() { 0 } else { 120 } {
                let word = *random.pick(&words);
                one_change(compared, name, &mut table, word, &mut random)?;
            }
        }
    }
    Ok(())
}

fn one_change(
    compared: &mut Compared,
    name: &str,
    table: &mut [u32],
    word: usize,
    random: &mut Random,
) -> Outcome {
    let (kind, value) = (kind(table, word), table[word]);
    let other = other_value(table, value, random);
    compared.case(format!(
        "{name}, word {word} ({kind:?}) {other} instead of {value}, seed {ONE_WORD_SEED}"
    ));
    table[word] = other;
    let (refusal, _) = compared.check(table)?;
    if refusal == 0 || random.one_in(8) {
        all_calls(compared, &mut table.to_vec(), random)?;
    }
    table[word] = value;
    Ok(())
}

/// Random words: of any size, small ones, and pages that look right.
pub fn random_words(compared: &mut Compared) -> Outcome {
    let mut random = Random::new(RANDOM_SEED);
    for round in 0..1000 {
        let limit = *random.pick(&[2, 3, 9, 342, 1024, EDGE, u32::MAX]);
        compared.case(format!(
            "words below {limit}, seed {RANDOM_SEED}, round {round}"
        ));
        let mut table: Vec<u32> = (0..TABLE_WORDS + 3).map(|_| random.below(limit)).collect();
        all_calls(compared, &mut table, &mut random)?;
        likely_pages(&mut table, &mut random);
        compared.check(&table)?;
        all_calls(compared, &mut table, &mut random)?;
        compared.empty(&mut table)?;
    }
    for round in 0..1000 {
        compared.case(format!("likely tables, seed {RANDOM_SEED}, round {round}"));
        let mut table = likely_table(&mut random);
        compared.check(&table)?;
        all_calls(compared, &mut table, &mut random)?;
    }
    Ok(())
}

/// Levels, counts and names in range, so that a check goes further.
fn likely_pages(table: &mut [u32], random: &mut Random) {
    table[0] = random.between(1, 341);
    table[1] = random.below(table[0]);
    for page in 0..table[0] {
        let words = &mut table[first_word(page)..][..PAGE_WORDS];
        words[0] = random.below(5);
        words[1] = random.between(4, 8);
        for entry in words[2..].chunks_exact_mut(ENTRY_WORDS) {
            entry[4] = random.below(341);
        }
    }
}

/// A few pages of few pieces: now and then a sound table.
fn likely_table(random: &mut Random) -> Vec<u32> {
    let mut table = vec![0; TABLE_WORDS];
    let pieces = Family::Tiny.pieces(random.between(0, 8) as usize, random);
    (table[0], table[2]) = (1, pieces.len() as u32);
    table[4] = pieces.len() as u32;
    for (place, (number, rect)) in pieces.into_iter().enumerate() {
        let Rect { x1, y1, x2, y2 } = rect;
        let word = first_word(0) + FIRST_ENTRY_WORD + ENTRY_WORDS * place;
        table[word..][..ENTRY_WORDS].copy_from_slice(&[x1, y1, x2, y2, number]);
    }
    if random.one_in(2) {
        let word = random.below(50) as usize;
        table[word] = random.below(12);
    }
    table
}

#[cfg(test)]
mod tests {
    use super::*;

    #[test]
    fn each_kind_of_word_is_met() {
        let samples = samples();
        let (_, table) = samples.iter().find(|s| s.0 == "three-levels").unwrap();
        for wanted in KINDS {
            let met = (0..TABLE_WORDS + 1).any(|word| kind(table, word) as u8 == wanted as u8);
            assert!(met, "{wanted:?}");
        }
    }
}
