//! The two calls that turn, and turned lays.

use crate::cases::{self, edge_cases, spoilt};
use crate::compared::asked;
use crate::{Compared, Outcome};
use model::random::Random;
use model::sizes::EDGE;
use model::tables::{within, Family, Piece};
use model::turning::NO_RECT;
use model::{Rect, PIECES, TABLE_WORDS};

pub const SEED: u64 = 114;
pub const LAYS_SEED: u64 = 115;

/// The two calls, each by itself.
pub fn turning(compared: &mut Compared) -> Outcome {
    extreme_numbers(compared)?;
    any_sizes(compared)?;
    any_numbers(compared)?;
    few_bits(compared)?;
    any_bits(compared)
}

/// Turns the rectangle; says whether it is valid.
fn is_turned(compared: &mut Compared, rect: Rect) -> Outcome<bool> {
    let turned = compared.turned_rect(rect)?;
    assert_eq!(turned.is_valid(), rect.is_valid());
    assert_eq!(turned == NO_RECT, !rect.is_valid());
    Ok(rect.is_valid())
}

/// Rectangles at the very edge, and all of four extreme numbers.
fn extreme_numbers(compared: &mut Compared) -> Outcome {
    compared.case("rectangles at the very edge");
    let mut valid = 0;
    for rect in edge_cases() {
        valid += u32::from(is_turned(compared, rect)?);
    }
    assert_eq!(valid, 3);
    let numbers = [0, 1, 2, 499_999, EDGE - 1, EDGE, EDGE + 1, u32::MAX];
    for x1 in numbers {
        for y1 in numbers {
            for x2 in numbers {
                for y2 in numbers {
                    is_turned(compared, Rect::new(x1, y1, x2, y2))?;
                }
            }
        }
    }
    Ok(())
}

/// Rectangles anywhere up to each size and of each family, sound and spoilt.
fn any_sizes(compared: &mut Compared) -> Outcome {
    let random = &mut Random::new(SEED);
    for size in [1, 2, 8, 1_000, 65_536, EDGE - 1, EDGE] {
        compared.case(format!("edges up to {size}, seed {SEED}"));
        for _ in 0..500 {
            sound_and_spoilt(compared, within(size, random), random)?;
        }
    }
    for family in Family::ALL {
        compared.case(format!("{family:?}, seed {SEED}"));
        for _ in 0..100 {
            let rect = family.rect(random.below(1024), random);
            sound_and_spoilt(compared, rect, random)?;
        }
    }
    Ok(())
}

fn sound_and_spoilt(compared: &mut Compared, rect: Rect, random: &mut Random) -> Outcome {
    assert!(is_turned(compared, rect)?);
    assert!(!is_turned(compared, spoilt(rect, random))?);
    Ok(())
}

/// Four numbers of any size, seldom a valid rectangle.
fn any_numbers(compared: &mut Compared) -> Outcome {
    let random = &mut Random::new(SEED);
    for limit in [2, 4, EDGE + 1, EDGE + 2, u32::MAX] {
        compared.case(format!("numbers below {limit}, seed {SEED}"));
        let (mut valid, rounds) = (0, 1_000);
        for _ in 0..rounds {
            let mut number = || random.below(limit);
            let rect = Rect::new(number(), number(), number(), number());
            valid += u32::from(is_turned(compared, rect)?);
        }
        assert!(valid < rounds / 2);
        assert_eq!(valid > 0, limit < u32::MAX);
    }
    Ok(())
}

/// Each bit, each two and all but these, none and all.
fn few_bits(compared: &mut Compared) -> Outcome {
    compared.case("clauses of few bits and of nearly all");
    for t in 0..64 {
        compared.turned_clause(1 << t)?;
    }
    for t in 0..64 {
        for u in t..64 {
            compared.turned_clause(1 << t | 1 << u)?;
            compared.turned_clause(!(1 << t | 1 << u))?;
        }
    }
    compared.turned_clause(0)?;
    compared.turned_clause(u64::MAX)?;
    Ok(())
}

/// Valid clauses, and clauses of any bits.
fn any_bits(compared: &mut Compared) -> Outcome {
    let random = &mut Random::new(SEED);
    compared.case(format!("clauses, seed {SEED}"));
    for most in [1, 4, 20, 60] {
        for _ in 0..500 {
            compared.turned_clause(cases::clause(random, most))?;
            compared.turned_clause(random.any())?;
            compared.turned_clause(random.any() & random.any() & random.any())?;
        }
    }
    Ok(())
}

/// "the turned query on the turned pieces lists the same numbers"
pub fn turned_lays(compared: &mut Compared) -> Outcome {
    let random = &mut Random::new(LAYS_SEED);
    for family in Family::ALL {
        for count in [0, 1, 9, 60] {
            turned_three_times(compared, family, count, random)?;
        }
    }
    turned_three_times(compared, Family::Tiny, 300, random)?;
    turned_three_times(compared, Family::Spread, PIECES, random)
}

fn turned_three_times(
    compared: &mut Compared,
    family: Family,
    count: usize,
    random: &mut Random,
) -> Outcome {
    let case = |turns| format!("{count} of {family:?}, seed {LAYS_SEED}, {turns} turns");
    let mut lay = Lay::new(family, count, random);
    compared.case(case(0));
    let before = lay.answers(compared)?;
    for turns in 1..4 {
        compared.case(case(turns));
        lay.turn(compared)?;
        let now = lay.answers(compared)?;
        lay.same(compared, &before, &now)?;
    }
    Ok(())
}

/// Place calls from the empty table, and the queries asked then.
struct Lay {
    places: Vec<Piece>,
    queries: Vec<(Rect, Vec<u64>)>,
}

/// What the place calls return, and what the queries list.
struct Answers {
    refusals: Vec<u32>,
    listings: Vec<Vec<u16>>,
}

impl Lay {
    /// So many pieces of a family; some calls beside them are refused.
    fn new(family: Family, count: usize, random: &mut Random) -> Lay {
        let pieces = family.pieces(count, random);
        let queries = (0..12)
            .map(|_| {
                let reference = cases::reference(family, &pieces, random);
                (reference, cases::clauses(random))
            })
            .collect();
        let mut places = Vec::new();
        for (number, rect) in pieces {
            if random.one_in(8) {
                places.push((number, spoilt(rect, random)));
                places.push((random.between(1024, u32::MAX - 1), rect));
            }
            places.push((number, rect));
            if random.one_in(8) {
                places.push((number, rect));
            }
        }
        Lay { places, queries }
    }

    /// "Send each rectangle, the reference too", and each clause.
    fn turn(&mut self, compared: &mut Compared) -> Outcome {
        for (_, rect) in &mut self.places {
            *rect = compared.turned_rect(*rect)?;
        }
        for (reference, clauses) in &mut self.queries {
            *reference = compared.turned_rect(*reference)?;
            for clause in clauses {
                *clause = compared.turned_clause(*clause)?;
            }
        }
        Ok(())
    }

    fn answers(&self, compared: &mut Compared) -> Outcome<Answers> {
        let mut table = vec![0; TABLE_WORDS];
        compared.empty(&mut table)?;
        let places = self.places.iter();
        let refusals = places
            .map(|&(number, rect)| compared.place(&mut table, number, rect))
            .collect::<Outcome<_>>()?;
        let queries = self.queries.iter();
        let listings = queries
            .map(|(reference, clauses)| compared.listing(&table, *reference, clauses))
            .collect::<Outcome<_>>()?;
        Ok(Answers { refusals, listings })
    }

    /// The turned lay answers as it did before the turn.
    fn same(&self, compared: &Compared, before: &Answers, now: &Answers) -> Outcome {
        if let Some(call) = changed(&before.refusals, &now.refusals) {
            let (number, rect) = self.places[call];
            let (was, is) = (before.refusals[call], now.refusals[call]);
            let what = format!("turned place of {number} at {rect:?}");
            return compared.differs(what, format!("it returns {is}, and {was} unturned"));
        }
        if let Some(call) = changed(&before.listings, &now.listings) {
            let (reference, clauses) = &self.queries[call];
            let (was, is) = (&before.listings[call], &now.listings[call]);
            let what = asked("turned query", *reference, clauses, PIECES);
            return compared.differs(what, format!("it lists {is:?}, and {was:?} unturned"));
        }
        Ok(())
    }
}

/// The first place at which the answers are not the same.
fn changed<T: PartialEq>(before: &[T], now: &[T]) -> Option<usize> {
    before.iter().zip(now).position(|(was, is)| was != is)
}

#[cfg(test)]
mod tests {
    use super::*;
    use crate::Model;
    use std::collections::BTreeSet;

    #[test]
    fn lays_have_calls_of_all_kinds() {
        let random = &mut Random::new(1);
        for family in Family::ALL {
            let lay = Lay::new(family, 60, random);
            let answers = lay.answers(&mut Compared::new(&Model)).unwrap();
            let met: BTreeSet<u32> = answers.refusals.into_iter().collect();
            assert!(met.into_iter().eq([0, 2, 3, 7]));
            assert!(answers.listings.iter().any(|listing| listing.is_empty()));
            assert!(answers.listings.iter().any(|listing| !listing.is_empty()));
        }
    }

    /// Turned queries of pieces that are not turned list other pieces.
    #[test]
    fn a_lay_turned_in_part_is_noticed() {
        let compared = &mut Compared::new(&Model);
        let mut lay = Lay::new(Family::Large, 60, &mut Random::new(2));
        let before = lay.answers(compared).unwrap();
        let unturned = lay.places.clone();
        lay.turn(compared).unwrap();
        let now = lay.answers(compared).unwrap();
        assert!(lay.same(compared, &before, &now).is_ok());
        lay.places = unturned;
        let now = lay.answers(compared).unwrap();
        let difference = lay.same(compared, &before, &now).unwrap_err();
        assert!(format!("{difference:?}").contains("unturned"));
    }
}
