//! Outlines: areas, and points of every kind by outlines of every kind.

use crate::{points, Compared, Outcome};
use model::outlines::{Point, INSIDE, ON, OUTSIDE};
use model::random::Random;
use model::shapes::{self, Shape};
use model::sizes::{EDGE, POINTS};
use std::collections::HashSet;

pub const SEED: u64 = 112;
const COUNTS: [usize; 7] = [3, 4, 5, 9, 20, 63, POINTS];
const SIZES: [u32; 4] = [66, 1000, EDGE - 1, EDGE];

pub fn outlines(compared: &mut Compared) -> Outcome {
    kinds(compared)?;
    tiny_grids(compared)?;
    any_lengths(compared)?;
    coordinates(compared)?;
    refused_in_pairs(compared)
}

/// Outlines of every kind, count and size; all kinds but those on one line have
/// points on, inside and outside.
fn kinds(compared: &mut Compared) -> Outcome {
    let random = &mut Random::new(SEED);
    for shape in Shape::ALL {
        let mut met = HashSet::new();
        for count in COUNTS {
            for size in SIZES {
                for round in 0..6 {
                    compared.case(format!(
                        "{shape:?}, {count} points up to {size}, seed {SEED}, round {round}"
                    ));
                    let words = shape.outline(count, size, random);
                    let asked = points::by_outline(&words, 24, random);
                    met.extend(one_outline(compared, &words, &asked)?);
                }
            }
        }
        assert!(met.contains(&ON) && met.contains(&OUTSIDE));
        assert_eq!(met.contains(&INSIDE), !Shape::FLAT.contains(&shape));
    }
    Ok(())
}

/// The area, and the place of each point; returns the places.
fn one_outline(compared: &mut Compared, words: &[u32], asked: &[Point]) -> Outcome<HashSet<u32>> {
    compared.outline_area(words)?;
    let mut met = HashSet::new();
    for &Point { x, y } in asked {
        met.insert(compared.outline_point(words, x, y)?.1);
    }
    Ok(met)
}

/// Coordinates from 0 to 1, 2, 3 or 4, where nearly everything meets, and all
/// the points there and around.
fn tiny_grids(compared: &mut Compared) -> Outcome {
    let random = &mut Random::new(SEED);
    for round in 0..600 {
        let size = random.between(1, 4);
        let most = *random.pick(&[3, 4, 6, 12, POINTS as u32]);
        let count = random.between(3, most) as usize;
        compared.case(format!("grid of {size}, seed {SEED}, round {round}"));
        let words = shapes::words(&shapes::anywhere(count, size, random));
        let rows = (0..=size + 1).flat_map(|y| (0..=size + 1).map(move |x| Point::new(x, y)));
        one_outline(compared, &words, &rows.collect::<Vec<_>>())?;
    }
    Ok(())
}

/// Every number of words around the allowed ones, and far more, with words of
/// every size.
fn any_lengths(compared: &mut Compared) -> Outcome {
    let random = &mut Random::new(SEED);
    let lengths = (0..=140).chain([1000, 100_001, (1 << 16) + 6, (1 << 17) + 8]);
    for length in lengths {
        for limit in [1, 10, EDGE + 1, EDGE + 2, u32::MAX] {
            compared.case(format!("{length} words below {limit}, seed {SEED}"));
            let words: Vec<u32> = (0..length).map(|_| random.below(limit)).collect();
            compared.outline_area(&words)?;
            compared.outline_point(&words, 4, 4)?;
            compared.outline_point(&words, random.below(limit), random.below(limit))?;
        }
    }
    Ok(())
}

/// One coordinate at the very edge, or too large: each word of an outline, and
/// the x and the y of a point.
fn coordinates(compared: &mut Compared) -> Outcome {
    let random = &mut Random::new(SEED);
    compared.case(format!("coordinates at the edge, seed {SEED}"));
    for count in [3, 4, POINTS] {
        let sound = Shape::Star.outline(count, 1000, random);
        for value in [EDGE, EDGE + 1, 1 << 31, u32::MAX] {
            let expected = if value == EDGE { 0 } else { 11 };
            for word in 0..sound.len() {
                let mut words = sound.clone();
                words[word] = value;
                assert_eq!(compared.outline_area(&words)?.0, expected);
                assert_eq!(compared.outline_point(&words, 500, 500)?.0, expected);
            }
            for (x, y) in [(value, 500), (500, value), (value, value)] {
                assert_eq!(compared.outline_point(&sound, x, y)?.0, expected);
            }
        }
    }
    Ok(())
}

/// Both refusals in one call: "tested in that order".
fn refused_in_pairs(compared: &mut Compared) -> Outcome {
    compared.case("a wrong number of words and a coordinate too large");
    for length in [0, 1, 2, 4, 5, 7, 127, 129, 130, 131, 1000] {
        for value in [0, EDGE, EDGE + 1, u32::MAX] {
            let words = vec![value; length];
            assert_eq!(compared.outline_area(&words)?, (10, 0));
            for (x, y) in [(0, 0), (EDGE + 1, 0), (0, EDGE + 1), (u32::MAX, u32::MAX)] {
                assert_eq!(compared.outline_point(&words, x, y)?, (10, 0));
            }
        }
    }
    Ok(())
}
