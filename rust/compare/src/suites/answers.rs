//! Answer slices one too short, exact and longer; the front part.

use crate::{cases, Compared, Outcome};
use model::pages::{page_count, piece_count};
use model::random::Random;
use model::tables::{pieces_in, samples, Family};

pub const SEED: u64 = 104;

pub fn answers(compared: &mut Compared) -> Outcome {
    let mut random = Random::new(SEED);
    for (name, table) in samples() {
        compared.case(format!("answers, {name}, seed {SEED}"));
        let pieces = pieces_in(&table);
        for _ in 0..6 {
            let reference = cases::reference(Family::Tiny, &pieces, &mut random);
            // All pieces, none, and some.
            for clauses in [vec![1], vec![1 << 5, 1 << 7], cases::clauses(&mut random)] {
                for length in around(piece_count(&table)) {
                    compared.query(&table, reference, &clauses, length)?;
                }
                for length in around(page_count(&table)) {
                    compared.opened_pages(&table, reference, &clauses, length)?;
                }
            }
        }
    }
    Ok(())
}

/// Lengths around the number of words that are needed.
fn around(needed: u32) -> Vec<usize> {
    let needed = needed as usize;
    let mut lengths = vec![0, 1, needed / 2, needed, needed + 1, needed + 100, 3000];
    lengths.extend(needed.checked_sub(1));
    lengths
}

pub fn front(compared: &mut Compared) -> Outcome {
    let answer: Vec<u16> = (0..1100).collect();
    for length in [0, 1, 2, 1023, 1024, 1100] {
        compared.case(format!("front of {length} words"));
        for count in 0..=length + 3 {
            compared.front(&answer[..length], count)?;
        }
        for count in [1 << 16, 1 << 32, (1 << 32) + 1, usize::MAX] {
            compared.front(&answer[..length], count)?;
        }
    }
    Ok(())
}
