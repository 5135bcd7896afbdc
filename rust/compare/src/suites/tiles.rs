//! Pieces among the nine tiles of a reference.

use crate::cases::{self, at_configuration, edge_cases, spoilt, REFERENCE};
use crate::{Compared, Outcome};
use model::codes::configurations as all_configurations;
use model::random::Random;
use model::sizes::{EDGE, TILES};
use model::tables::{pairs_on, within, Family};
use model::tiles::{Shares, REFUSED};
use model::Rect;

pub const SEED: u64 = 113;

pub fn tiles(compared: &mut Compared) -> Outcome {
    configurations(compared)?;
    grids(compared)?;
    extreme_numbers(compared)?;
    any_sizes(compared)?;
    shared_edges(compared)?;
    validity(compared)?;
    one_number(compared)?;
    refused(compared)?;
    any_numbers(compared)
}

/// How much of a piece each tile was seen to have.
#[derive(Default)]
struct Met {
    empty: [bool; TILES],
    partly: [bool; TILES],
    full: [bool; TILES],
}

impl Met {
    fn note(&mut self, piece: Rect, (_, areas, _, _): Shares) {
        for (tile, area) in areas.into_iter().enumerate() {
            self.empty[tile] |= area == 0;
            self.partly[tile] |= 0 < area && area < piece.area();
            self.full[tile] |= area == piece.area();
        }
    }

    /// Each tile was met in each of the three ways.
    fn assert_all(&self) {
        assert_eq!(
            [self.empty, self.partly, self.full],
            [[true; TILES]; 3],
            "empty, partly, full"
        );
    }
}

/// One piece for each configuration to the reference.
fn configurations(compared: &mut Compared) -> Outcome {
    let mut met = Met::default();
    for (i, j) in all_configurations() {
        compared.case(format!("configuration ({i}, {j})"));
        let piece = at_configuration(i, j);
        met.note(piece, compared.tile_shares(piece, REFERENCE)?);
        compared.tile_shares(REFERENCE, piece)?;
    }
    met.assert_all();
    Ok(())
}

/// All pairs on a small grid, where nearly everything meets.
fn grids(compared: &mut Compared) -> Outcome {
    compared.case("all pairs on a grid of 5");
    let mut met = Met::default();
    for (piece, reference) in pairs_on(&[0, 1, 2, 3, 4, 5]) {
        met.note(piece, compared.tile_shares(piece, reference)?);
    }
    met.assert_all();
    Ok(())
}

/// All pairs on lines at the ends of the cloth, beside them and in the middle.
/// A tile alone has the largest area; a remainder comes near to it.
fn extreme_numbers(compared: &mut Compared) -> Outcome {
    compared.case("all pairs of extreme numbers");
    let (mut largest_area, mut largest_remainder) = (0, 0);
    let numbers = [0, 1, 2, 499_999, 500_000, EDGE - 1, EDGE];
    for (piece, reference) in pairs_on(&numbers) {
        let (_, areas, _, remainders) = compared.tile_shares(piece, reference)?;
        largest_area = areas.into_iter().fold(largest_area, u64::max);
        largest_remainder = remainders.into_iter().fold(largest_remainder, u64::max);
    }
    assert_eq!(largest_area, 1_000_000_000_000);
    assert!(largest_remainder > 999_000_000_000, "{largest_remainder}");
    Ok(())
}

/// Pairs anywhere up to each size, and of each two families.
fn any_sizes(compared: &mut Compared) -> Outcome {
    let random = &mut Random::new(SEED);
    let mut met = Met::default();
    for size in [1, 2, 8, 100, 1_000, 65_536, EDGE - 1, EDGE] {
        compared.case(format!("edges up to {size}, seed {SEED}"));
        for _ in 0..10_000 {
            let (piece, reference) = (within(size, random), within(size, random));
            met.note(piece, compared.tile_shares(piece, reference)?);
        }
    }
    met.assert_all();
    for one in Family::ALL {
        for other in Family::ALL {
            compared.case(format!("{one:?} among {other:?}, seed {SEED}"));
            for _ in 0..200 {
                let piece = one.rect(random.below(1024), random);
                let reference = other.rect(random.below(1024), random);
                compared.tile_shares(piece, reference)?;
            }
        }
    }
    Ok(())
}

/// References that share edges with a piece, or miss them by one unit; so the
/// other way round.
fn shared_edges(compared: &mut Compared) -> Outcome {
    let random = &mut Random::new(SEED);
    for family in Family::ALL {
        compared.case(format!("edges shared, {family:?}, seed {SEED}"));
        let pieces = family.pieces(40, random);
        for _ in 0..500 {
            let piece = random.pick(&pieces).1;
            let reference = cases::reference(family, &pieces, random);
            compared.tile_shares(piece, reference)?;
            compared.tile_shares(reference, piece)?;
        }
    }
    Ok(())
}

/// Rectangles at the very edge, valid and not, each with each.
fn validity(compared: &mut Compared) -> Outcome {
    compared.case("rectangles at the very edge");
    let mut accepted = 0;
    for piece in edge_cases() {
        for reference in edge_cases() {
            let shares = compared.tile_shares(piece, reference)?;
            let both_valid = piece.is_valid() && reference.is_valid();
            assert_eq!(shares == REFUSED, !both_valid);
            accepted += u32::from(both_valid);
        }
    }
    assert_eq!(accepted, 9);
    Ok(())
}

/// One of the eight numbers changed, to the very edge of the cloth and beyond.
fn one_number(compared: &mut Compared) -> Outcome {
    compared.case("one number at the edge");
    let sound = [100, 100, 200, 200];
    for place in 0..4 {
        for value in [0, 99, 100, 101, 199, 200, EDGE, EDGE + 1, 1 << 31, u32::MAX] {
            let mut numbers = sound;
            numbers[place] = value;
            let [x1, y1, x2, y2] = numbers;
            let changed = Rect::new(x1, y1, x2, y2);
            let refusal = if changed.is_valid() { 0 } else { 2 };
            assert_eq!(compared.tile_shares(changed, REFERENCE)?.0, refusal);
            assert_eq!(compared.tile_shares(REFERENCE, changed)?.0, refusal);
        }
    }
    Ok(())
}

/// A piece with a fault, a reference with one, and both.
fn refused(compared: &mut Compared) -> Outcome {
    let random = &mut Random::new(SEED);
    for round in 0..1_000 {
        compared.case(format!("not valid, seed {SEED}, round {round}"));
        let family = *random.pick(&Family::ALL);
        let pieces = family.pieces(2, random);
        let (piece, reference) = (pieces[0].1, cases::reference(family, &pieces, random));
        assert_eq!(compared.tile_shares(piece, reference)?.0, 0);
        let (bad_piece, bad_reference) = (spoilt(piece, random), spoilt(reference, random));
        assert_eq!(compared.tile_shares(bad_piece, reference)?, REFUSED);
        assert_eq!(compared.tile_shares(piece, bad_reference)?, REFUSED);
        assert_eq!(compared.tile_shares(bad_piece, bad_reference)?, REFUSED);
    }
    Ok(())
}

/// Eight numbers of any size, seldom two valid rectangles.
fn any_numbers(compared: &mut Compared) -> Outcome {
    let random = &mut Random::new(SEED);
    for limit in [2, 4, EDGE + 1, EDGE + 2, u32::MAX] {
        compared.case(format!("numbers below {limit}, seed {SEED}"));
        let (mut accepted, rounds) = (0, 2_000);
        for _ in 0..rounds {
            let mut number = || random.below(limit);
            let mut rect = || Rect::new(number(), number(), number(), number());
            let (refusal, ..) = compared.tile_shares(rect(), rect())?;
            accepted += u32::from(refusal == 0);
        }
        assert!(accepted < rounds / 2);
        assert_eq!(accepted > 0, limit < u32::MAX);
    }
    Ok(())
}
