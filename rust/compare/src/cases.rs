//! Things to pass on: rectangles, clauses, places for a fault.

use model::random::Random;
use model::sizes::EDGE;
use model::tables::{Family, Piece};
use model::Rect;

/// A valid clause that names one to `most` relations.
pub fn clause(random: &mut Random, most: u32) -> u64 {
    let named = random.between(1, most);
    (0..named).fold(0, |clause, _| clause | 1 << random.below(40))
}

/// A valid list of clauses, most often a short one that admits few.
pub fn clauses(random: &mut Random) -> Vec<u64> {
    let (count, most) = match random.below(8) {
        0..=2 => (1, 1),
        3 => (1, 4),
        4 => (2, 4),
        5 => (2, 20),
        6 => (3, 40),
        _ => (random.between(1, 8), 60),
    };
    (0..count).map(|_| clause(random, most)).collect()
}

/// A rectangle of the family, or one that shares edges with a piece.
pub fn reference(family: Family, pieces: &[Piece], random: &mut Random) -> Rect {
    if pieces.is_empty() || random.one_in(3) {
        return family.rect(random.below(1024), random);
    }
    let mut rect = random.pick(pieces).1;
    let other = random.pick(pieces).1;
    match random.below(6) {
        0 => rect.x1 = other.x1,
        1 => rect.y2 = other.y2,
        2 => rect = rect.widened(other),
        3 => (rect.x2, rect.y1) = (rect.x2 + 1, rect.y1.saturating_sub(1)),
        _ => {}
    }
    if rect.is_valid() {
        rect
    } else {
        random.pick(pieces).1
    }
}

/// The same rectangle with one fault.
pub fn spoilt(rect: Rect, random: &mut Random) -> Rect {
    let Rect { x1, y1, x2, y2 } = rect;
    match random.below(9) {
        0 => Rect::new(x1, y1, x1, y2),
        1 => Rect::new(x1, y1, x2, y1),
        2 => Rect::new(x2, y1, x1, y2),
        3 => Rect::new(x1, y2, x2, y1),
        4 => Rect::new(x1, y1, EDGE + 1, y2),
        5 => Rect::new(x1, y1, x2, EDGE + 1),
        6 => Rect::new(x1, y1, u32::MAX, y2),
        7 => Rect::new(EDGE + 1, y1, EDGE + 2, y2),
        _ => Rect::new(0, 0, 0, 0),
    }
}

/// Rectangles that are not valid, and valid ones at the very edge.
pub fn edge_cases() -> [Rect; 14] {
    [
        Rect::new(0, 0, 1, 1),
        Rect::new(0, 0, EDGE, EDGE),
        Rect::new(EDGE - 1, EDGE - 1, EDGE, EDGE),
        Rect::new(0, 0, 0, 0),
        Rect::new(0, 0, 0, 1),
        Rect::new(0, 0, 1, 0),
        Rect::new(5, 5, 5, 6),
        Rect::new(5, 5, 4, 6),
        Rect::new(5, 5, 6, 4),
        Rect::new(0, 0, EDGE + 1, 1),
        Rect::new(0, 0, 1, EDGE + 1),
        Rect::new(EDGE, 0, EDGE + 1, 1),
        Rect::new(EDGE + 1, EDGE + 1, EDGE + 2, EDGE + 2),
        Rect::new(0, 0, u32::MAX, u32::MAX),
    ]
}

/// Lists of clauses that are refused.
pub fn refused_clauses() -> Vec<Vec<u64>> {
    let mut lists = vec![vec![], vec![0], vec![1, 0], vec![0, 1], vec![u64::MAX]];
    lists.extend([vec![1; 9], vec![0; 9], vec![1; 3000], vec![u64::MAX; 3000]]);
    lists.extend((40..64).map(|bit| vec![1 << bit]));
    lists.extend((40..64).map(|bit| vec![1, 2, 1 << 5 | 1 << bit]));
    lists.extend((0..8).map(|place| {
        let mut list = vec![1; 8];
        list[place] = 0;
        list
    }));
    lists.push([vec![1; 7], vec![1 << 40]].concat());
    lists
}

/// Thirteen intervals, one for each code to [100, 200], in order.
pub const INTERVALS: [(u32, u32); 13] = [
    (250, 300),
    (200, 300),
    (150, 250),
    (100, 250),
    (50, 250),
    (150, 200),
    (100, 200),
    (50, 200),
    (120, 180),
    (100, 180),
    (50, 180),
    (50, 100),
    (20, 60),
];

/// The reference of the paper's examples.
pub const REFERENCE: Rect = Rect::new(100, 100, 200, 200);

/// A rectangle that stands in configuration (i, j) to [`REFERENCE`].
pub fn at_configuration(i: u8, j: u8) -> Rect {
    let (y1, y2) = INTERVALS[usize::from(i - 1)];
    let (x1, x2) = INTERVALS[usize::from(j - 1)];
    Rect::new(x1, y1, x2, y2)
}

#[cfg(test)]
mod tests {
    use super::*;
    use model::codes::{configuration, configurations};

    #[test]
    fn there_is_a_rectangle_for_each_configuration() {
        for (i, j) in configurations() {
            assert_eq!(configuration(at_configuration(i, j), REFERENCE), (i, j));
        }
    }

    #[test]
    fn refused_clauses_are_refused() {
        for list in refused_clauses() {
            assert_ne!(model::admitted(&list).0, 0);
        }
    }

    #[test]
    fn references_are_valid() {
        let mut random = Random::new(1);
        for family in Family::ALL {
            let pieces = family.pieces(50, &mut random);
            for _ in 0..200 {
                let valid = reference(family, &pieces, &mut random);
                assert!(valid.is_valid());
                assert!(!spoilt(valid, &mut random).is_valid());
            }
        }
    }
}
