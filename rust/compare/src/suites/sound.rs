//! Sound tables: those that place calls make, and those that they never make.

use crate::{cases, Compared, Outcome};
use model::random::Random;
use model::tables::{self, build, pieces_in, Family, Fill, Order, Piece};
use model::{PIECES, TABLE_WORDS};

pub const PLACED_SEED: u64 = 106;
pub const BUILT_SEED: u64 = 107;
pub const SAMPLES_SEED: u64 = 108;

/// Place calls from the empty table, refused ones among them, with all words
/// compared after each, and queries between them.
pub fn placed(compared: &mut Compared) -> Outcome {
    let mut random = Random::new(PLACED_SEED);
    for family in Family::ALL {
        for order in ["random", "rising", "falling"] {
            run_of_places(compared, family, order, &mut random)?;
        }
    }
    Ok(())
}

fn run_of_places(
    compared: &mut Compared,
    family: Family,
    order: &str,
    random: &mut Random,
) -> Outcome {
    let mut pieces = family.pieces(PIECES, random);
    match order {
        "rising" => pieces.sort_by_key(|piece| (piece.1.x1, piece.1.y1)),
        "falling" => pieces.sort_by_key(|piece| std::cmp::Reverse((piece.1.y2, piece.1.x2))),
        _ => {}
    }
    let mut table = vec![random.word(); TABLE_WORDS + random.below(4) as usize];
    compared.case(format!("{family:?}, {order}, seed {PLACED_SEED}"));
    compared.empty(&mut table)?;
    for (call, &(number, rect)) in pieces.iter().enumerate() {
        compared.case(format!(
            "{family:?}, {order}, seed {PLACED_SEED}, call {call}"
        ));
        compared.place(&mut table, number, rect)?;
        if call % 8 == 0 {
            refused_places(compared, &mut table, &pieces[..=call], random)?;
        }
        if call % 32 == 0 || call < 20 {
            compared.check(&table)?;
            queries(compared, &table, family, &pieces[..=call], 2, random)?;
        }
    }
    queries(compared, &table, family, &pieces, 40, random)
}

/// Calls that are refused: they change nothing.
fn refused_places(
    compared: &mut Compared,
    table: &mut [u32],
    standing: &[Piece],
    random: &mut Random,
) -> Outcome {
    let (number, rect) = *random.pick(standing);
    compared.place(table, number, rect)?;
    compared.place(table, random.between(1024, u32::MAX - 1), rect)?;
    compared.place(table, random.below(1024), cases::spoilt(rect, random))?;
    Ok(())
}

fn queries(
    compared: &mut Compared,
    table: &[u32],
    family: Family,
    pieces: &[Piece],
    count: usize,
    random: &mut Random,
) -> Outcome {
    for _ in 0..count {
        let reference = cases::reference(family, pieces, random);
        let clauses = cases::clauses(random);
        compared.query(table, reference, &clauses, PIECES)?;
        compared.opened_pages(table, reference, &clauses, 341)?;
    }
    Ok(())
}

/// Tables built from the leaves up, with any page numbers and fills, queried,
/// and filled up by place calls.
pub fn built(compared: &mut Compared) -> Outcome {
    let mut random = Random::new(BUILT_SEED);
    for _ in 0..3 {
        for family in Family::ALL {
            for fill in [Fill::Least, Fill::Most, Fill::Mixed] {
                for order in [Order::LeavesFirst, Order::RootFirst, Order::Shuffled] {
                    one_built(compared, family, fill, order, &mut random)?;
                }
            }
        }
    }
    Ok(())
}

fn one_built(
    compared: &mut Compared,
    family: Family,
    fill: Fill,
    order: Order,
    random: &mut Random,
) -> Outcome {
    let most = *random.pick(&[20, 100, 1024]);
    let count = random.between(0, most) as usize;
    compared.case(format!(
        "{count} of {family:?}, {fill:?}, {order:?}, seed {BUILT_SEED}"
    ));
    let pieces = list(family, count, random);
    let mut table = build(&pieces, fill, order, random);
    compared.check(&table)?;
    queries(compared, &table, family, &pieces, 12, random)?;
    more_places(compared, &mut table, family, 24, random)?;
    let pieces = pieces_in(&table);
    queries(compared, &table, family, &pieces, 6, random)
}

/// Pieces in an order that makes pages apart, or pages that overlap.
fn list(family: Family, count: usize, random: &mut Random) -> Vec<Piece> {
    let mut pieces = family.pieces(count, random);
    match random.below(3) {
        0 => pieces.sort_by_key(|piece| (piece.1.x1, piece.1.y1)),
        1 => pieces.sort_by_key(|piece| (piece.1.y1 / 5000, piece.1.x1)),
        _ => {}
    }
    pieces
}

fn more_places(
    compared: &mut Compared,
    table: &mut [u32],
    family: Family,
    count: usize,
    random: &mut Random,
) -> Outcome {
    for _ in 0..count {
        let rect = family.rect(random.below(1024), random);
        compared.place(table, random.below(1030), rect)?;
    }
    Ok(())
}

/// The named samples: queried, and filled up to the last piece.
pub fn samples(compared: &mut Compared) -> Outcome {
    let mut random = Random::new(SAMPLES_SEED);
    for (name, mut table) in tables::samples() {
        compared.case(format!("{name}, seed {SAMPLES_SEED}"));
        let pieces = pieces_in(&table);
        compared.check(&table)?;
        queries(compared, &table, Family::Tiny, &pieces, 20, &mut random)?;
        for number in 0..1025 {
            let family = *random.pick(&[Family::Tiny, Family::Spread, Family::Large]);
            let rect = family.rect(number % 1024, &mut random);
            compared.place(&mut table, number, rect)?;
        }
        let pieces = pieces_in(&table);
        queries(compared, &table, Family::Spread, &pieces, 20, &mut random)?;
    }
    Ok(())
}
