//! Jobs by chance. The same seed gives the same job.

use compare::cases;
use model::job::JOB_BYTES;
use model::random::Random;
use model::tables::{Family, Piece};
use vectors::jobs::{bytes, words, Query};

/// A job with up to 60 pieces and 14 queries, or in some cases 400 and 60; one
/// in six is spoilt and most often no job.
pub fn job(seed: u64) -> Vec<u8> {
    let random = &mut Random::new(seed);
    let (pieces, queries) = match random.below(8) {
        0 => (400, 60),
        _ => (60, 14),
    };
    let family = *random.pick(&Family::ALL);
    let placed = pieces_of(family, random.below(pieces + 1), random);
    let count = random.below(queries + 1);
    let asked: Vec<Query> = (0..count).map(|_| query(family, &placed, random)).collect();
    let good = bytes(&words(&placed, &asked));
    match random.below(6) {
        0 => spoilt(good, random),
        _ => good,
    }
}

/// A job with all 1,024 pieces and many refused ones, and queries most of which
/// list nearly everything.
pub fn large(seed: u64) -> Vec<u8> {
    let random = &mut Random::new(seed);
    let family = *random.pick(&Family::ALL);
    let mut placed = family.pieces(1_024, random);
    let again = pieces_of(family, random.between(400, 1_000), random);
    placed.extend(again);
    let count = random.between(45, 60);
    let asked: Vec<Query> = (0..count)
        .map(|_| match random.below(8) {
            0 => query(family, &placed, random),
            _ => (cases::reference(family, &placed[..1_024], random), vec![1]),
        })
        .collect();
    bytes(&words(&placed, &asked))
}

/// Pieces of which about a fourth is refused: by a rectangle, by a number too
/// large, by one that stands.
fn pieces_of(family: Family, count: u32, random: &mut Random) -> Vec<Piece> {
    let mut pieces = family.pieces(count as usize, random);
    for place in 0..pieces.len() {
        let earlier = pieces[random.below(place as u32 + 1) as usize].0;
        let (number, rect) = &mut pieces[place];
        match random.below(12) {
            0 => *rect = cases::spoilt(*rect, random),
            1 => *number = *random.pick(&[1_024, 1_025, 65_536, u32::MAX]),
            2 => *number = earlier,
            _ => {}
        }
    }
    pieces
}

/// A query; one in eight has a rectangle that is not valid, one in three any
/// number of clauses from 0 to 10, some of them not valid.
fn query(family: Family, pieces: &[Piece], random: &mut Random) -> Query {
    let valid: Vec<Piece> = pieces
        .iter()
        .copied()
        .filter(|piece| piece.1.is_valid())
        .collect();
    let mut rect = cases::reference(family, &valid, random);
    if random.one_in(8) {
        rect = cases::spoilt(rect, random);
    }
    let clauses = match random.below(3) {
        0 => (0..random.below(11)).map(|_| any_clause(random)).collect(),
        _ => cases::clauses(random),
    };
    (rect, clauses)
}

fn any_clause(random: &mut Random) -> u64 {
    match random.below(16) {
        0 => 0,
        1 => cases::clause(random, 4) | 1 << random.between(40, 63),
        _ => cases::clause(random, 40),
    }
}

/// The same bytes with one fault: cut, made longer, or another word.
fn spoilt(mut bytes: Vec<u8>, random: &mut Random) -> Vec<u8> {
    let length = bytes.len();
    let some = random.between(1, 9) as usize;
    match random.below(5) {
        0 => bytes.truncate(length.saturating_sub(some)),
        1 => bytes.resize(length + some, 0),
        2 => bytes.resize(JOB_BYTES + some, 0),
        3 => bytes[0] ^= 1 << random.below(8),
        _ => {
            let place = random.below(length as u32) as usize;
            bytes[place] ^= 1 << random.below(8);
        }
    }
    bytes
}

#[cfg(test)]
mod tests {
    use super::*;

    #[test]
    fn a_seed_is_a_job() {
        assert_eq!(job(3), job(3));
        assert_ne!(job(3), job(4));
    }

    #[test]
    fn jobs_fit() {
        for seed in 0..40 {
            assert!(large(seed).len() <= JOB_BYTES, "seed {seed}");
        }
    }
}
