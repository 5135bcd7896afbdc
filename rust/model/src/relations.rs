//! Relations and their configurations. Nothing here knows of pages.

use super::codes::turned;

/// Whether configuration (i, j) belongs to relation t.
pub fn belongs(t: u32, i: u8, j: u8) -> bool {
    match t {
        0..=7 => topological(t, i, j),
        // "A relation number from 8 to 39 is 8 + 8 times d + k"
        8..=39 => directed((t - 8) / 8, (t - 8) % 8, i, j),
        _ => false,
    }
}

/// "Topological relations between objects, after Table 2 of 003"
fn topological(t: u32, i: u8, j: u8) -> bool {
    let both = |codes: &[u8]| codes.contains(&i) && codes.contains(&j);
    match t {
        // "0 disjoint, all 169"
        0 => true,
        // "1 meet, both codes in 2 to 12 (121)"
        1 => both(&[2, 3, 4, 5, 6, 7, 8, 9, 10, 11, 12]),
        // "2 overlap, both in 3 to 11 (81)"
        2 => both(&[3, 4, 5, 6, 7, 8, 9, 10, 11]),
        // "3 covered_by, both in {6, 7, 9, 10}"
        3 => both(&[6, 7, 9, 10]),
        // "4 inside, (9, 9)"
        4 => (i, j) == (9, 9),
        // "5 equal, (7, 7)"
        5 => (i, j) == (7, 7),
        // "6 covers, both in {4, 5, 7, 8}"
        6 => both(&[4, 5, 7, 8]),
        // "7 contains, (5, 5)"
        7 => (i, j) == (5, 5),
        _ => false,
    }
}

/// "with d = 0 north, 1 east, 2 south, 3 west. Here k is the kind"
///
/// "Each further d is a quarter turn clockwise: the new j is the old i, and
/// the new i is the old j turned round." So the new (i, j) was (j, turned i).
fn directed(d: u32, k: u32, i: u8, j: u8) -> bool {
    if d == 0 {
        north(k, i, j)
    } else {
        directed(d - 1, k, j, turned(i))
    }
}

/// "for north, after Table 5"
fn north(k: u32, i: u8, j: u8) -> bool {
    match k {
        // "k = 0 strong: i = 1."
        0 => i == 1,
        // "k = 1 weak: i = 3."
        1 => i == 3,
        // "k = 2 strong bounded: (1, 9)."
        2 => (i, j) == (1, 9),
        // "k = 3 weak bounded: (3, 9)."
        3 => (i, j) == (3, 9),
        // "k = 4 strong corner (north_east): (1, 1)."
        4 => (i, j) == (1, 1),
        // "k = 5 weak corner: i = 3, j in 1 to 3."
        5 => i == 3 && [1, 2, 3].contains(&j),
        // "k = 6 just: i = 2."
        6 => i == 2,
        // "k = 7 plain: i in 1 to 3."
        7 => [1, 2, 3].contains(&i),
        _ => false,
    }
}

#[cfg(test)]
mod tests {
    use super::super::codes::{configuration, configurations};
    use super::super::rectangles::Rect;
    use super::*;
    use std::collections::BTreeSet;

    fn set(t: u32) -> BTreeSet<(u8, u8)> {
        configurations()
            .filter(|&(i, j)| belongs(t, i, j))
            .collect()
    }

    #[test]
    fn sizes_of_the_topological_relations() {
        let sizes: Vec<usize> = (0..8).map(|t| set(t).len()).collect();
        assert_eq!(sizes, [169, 121, 81, 16, 1, 1, 16, 1]);
    }

    #[test]
    fn sizes_of_the_directions() {
        for d in 0..4 {
            let sizes: Vec<usize> = (0..8).map(|k| set(8 + 8 * d + k).len()).collect();
            assert_eq!(sizes, [13, 13, 1, 1, 1, 3, 13, 39]);
        }
    }

    #[test]
    fn each_direction_is_the_one_before_turned() {
        for t in 16..40 {
            let old = set(t - 8);
            let new: BTreeSet<(u8, u8)> = old.iter().map(|&(i, j)| (turned(j), i)).collect();
            assert_eq!(set(t), new);
        }
    }

    #[test]
    fn four_quarter_turns_come_back() {
        for k in 0..8 {
            for (i, j) in configurations() {
                assert_eq!(directed(4, k, i, j), north(k, i, j));
            }
        }
    }

    #[test]
    fn turning_is_clockwise_on_the_cloth() {
        // A quarter turn clockwise sends (x, y) to (y, 6 - x).
        let turn = |r: Rect| Rect::new(r.y1, 6 - r.x2, r.y2, 6 - r.x1);
        let q = Rect::new(2, 2, 4, 4);
        for (x1, y1, x2, y2) in small() {
            let p = Rect::new(x1, y1, x2, y2);
            let (i, j) = configuration(p, q);
            assert_eq!(configuration(turn(p), turn(q)), (turned(j), i));
        }
    }

    fn small() -> impl Iterator<Item = (u32, u32, u32, u32)> {
        let ends = || (0..6).flat_map(|a| (a + 1..=6).map(move |b| (a, b)));
        ends().flat_map(move |(x1, x2)| ends().map(move |(y1, y2)| (x1, y1, x2, y2)))
    }

    #[test]
    fn the_strong_corners() {
        let corners: Vec<_> = (0..4).map(|d| set(8 + 8 * d + 4)).collect();
        let expected = [(1, 1), (13, 1), (13, 13), (1, 13)];
        for (corner, place) in corners.iter().zip(expected) {
            assert!(corner.iter().eq([&place]));
        }
    }

    #[test]
    fn overlap_is_more_than_overlapping_rectangles() {
        // "Reading overlap as the 50 configurations of overlapping rectangles
        // instead of the 81": those where neither holds the other.
        let within = |c: u8| [6, 7, 9, 10].contains(&c);
        let around = |c: u8| [4, 5, 7, 8].contains(&c);
        let crossing = set(2)
            .into_iter()
            .filter(|&(i, j)| !(within(i) && within(j) || around(i) && around(j)));
        assert_eq!(crossing.count(), 50);
        assert_eq!(set(2).len(), 81);
    }
}
