//! Laws of the shares among tiles, by brute force.

use model::codes::configuration;
use model::random::Random;
use model::relations::belongs;
use model::sizes::{EDGE, TILES};
use model::tables::{pairs_on, within};
use model::tiles::Shares;
use model::{tile_shares, Rect};

/// All pairs of rectangles on a grid of 5 times 5 units.
fn on_a_grid() -> Vec<(Rect, Rect)> {
    let pairs = pairs_on(&[0, 1, 2, 3, 4, 5]);
    assert_eq!(pairs.len(), 15 * 15 * 15 * 15);
    pairs
}

/// These, and pairs of any size.
fn for_many(seed: u64, mut law: impl FnMut(Rect, Rect)) {
    for (piece, reference) in on_a_grid() {
        law(piece, reference);
    }
    let random = &mut Random::new(seed);
    for size in [10, 100, 1_000, 65_536, EDGE] {
        for _ in 0..2_000 {
            law(within(size, random), within(size, random));
        }
    }
}

/// The areas of an accepted call.
fn areas(piece: Rect, reference: Rect) -> [u64; TILES] {
    let (refusal, areas, _, _) = tile_shares(piece, reference);
    assert_eq!(refusal, 0);
    areas
}

/// The row or column of the unit from `start` to `start` + 1: before both
/// lines, between them, or after both.
fn third(start: u32, low: u32, high: u32) -> usize {
    match start {
        _ if start < low => 0,
        _ if start < high => 1,
        _ => 2,
    }
}

#[test]
fn areas_count_the_unit_squares() {
    for (piece, reference) in on_a_grid() {
        let mut counted = [0; TILES];
        for y in piece.y1..piece.y2 {
            for x in piece.x1..piece.x2 {
                let row = third(y, reference.y1, reference.y2);
                let column = third(x, reference.x1, reference.x2);
                counted[3 * row + column] += 1;
            }
        }
        assert_eq!(areas(piece, reference), counted, "{piece:?} {reference:?}");
    }
}

/// "The nine areas add up to the piece's area."
#[test]
fn the_areas_add_up() {
    for_many(61, |piece, reference| {
        let sum: u64 = areas(piece, reference).iter().sum();
        assert_eq!(sum, piece.area());
    });
}

/// "The nine quotients times that area, plus the nine remainders, add up to
/// 1,000 times it."
#[test]
fn quotients_and_remainders_add_up() {
    for_many(62, |piece, reference| {
        let (_, _, thousandths, remainders) = tile_shares(piece, reference);
        let times: u64 = thousandths.iter().map(|q| q * piece.area()).sum();
        let over: u64 = remainders.iter().sum();
        assert_eq!(times + over, 1_000 * piece.area());
    });
}

/// "the exact remainder of that division", tile by tile: what is over is less
/// than the piece's area, and nothing else is.
#[test]
fn each_division_is_exact() {
    for_many(63, |piece, reference| {
        let (_, areas, thousandths, remainders) = tile_shares(piece, reference);
        for tile in 0..TILES {
            let (quotient, remainder) = (thousandths[tile], remainders[tile]);
            assert!(quotient <= 1_000 && remainder < piece.area());
            assert_eq!(quotient * piece.area() + remainder, 1_000 * areas[tile]);
        }
    });
}

/// The same numbers at other places: tile t gets those of tile `from[t]`.
fn moved((refusal, areas, thousandths, remainders): Shares, from: [usize; TILES]) -> Shares {
    let each = |numbers: [u64; TILES]| from.map(|tile| numbers[tile]);
    (refusal, each(areas), each(thousandths), each(remainders))
}

/// Changes both rectangles: tile t of the changed pair was tile `from[t]`.
fn changed_alike(seed: u64, from: [usize; TILES], change: impl Fn(Rect) -> Rect) {
    for_many(seed, |piece, reference| {
        let changed = tile_shares(change(piece), change(reference));
        assert_eq!(changed, moved(tile_shares(piece, reference), from));
    });
}

#[test]
fn mirrored_from_west_to_east() {
    changed_alike(64, [2, 1, 0, 5, 4, 3, 8, 7, 6], |r| {
        Rect::new(EDGE - r.x2, r.y1, EDGE - r.x1, r.y2)
    });
}

#[test]
fn mirrored_from_south_to_north() {
    changed_alike(65, [6, 7, 8, 3, 4, 5, 0, 1, 2], |r| {
        Rect::new(r.x1, EDGE - r.y2, r.x2, EDGE - r.y1)
    });
}

#[test]
fn x_and_y_exchanged() {
    changed_alike(66, [0, 3, 6, 1, 4, 7, 2, 5, 8], |r| {
        Rect::new(r.y1, r.x1, r.y2, r.x2)
    });
}

/// A quarter turn clockwise: what was north is east.
#[test]
fn turned_clockwise() {
    changed_alike(67, [2, 5, 8, 1, 4, 7, 0, 3, 6], |r| {
        Rect::new(r.y1, EDGE - r.x2, r.y2, EDGE - r.x1)
    });
}

/// Moving both by the same way changes nothing.
#[test]
fn moved_together() {
    let random = &mut Random::new(68);
    for_many(68, |piece, reference| {
        let whole = piece.widened(reference);
        let x = random.between(0, EDGE - whole.x2);
        let y = random.between(0, EDGE - whole.y2);
        let step = |r: Rect| Rect::new(r.x1 + x, r.y1 + y, r.x2 + x, r.y2 + y);
        let there = tile_shares(step(piece), step(reference));
        assert_eq!(there, tile_shares(piece, reference));
    });
}

/// Where the relation holds, the whole piece is in the tiles; met so often.
fn only_in(relation: u32, tiles: &[usize]) -> usize {
    let mut met = 0;
    for_many(69, |piece, reference| {
        let (i, j) = configuration(piece, reference);
        if belongs(relation, i, j) {
            let areas = areas(piece, reference);
            let there: u64 = tiles.iter().map(|&tile| areas[tile]).sum();
            assert_eq!(there, piece.area(), "{relation}: {piece:?} {reference:?}");
            met += 1;
        }
    });
    met
}

/// Document 01's directions, "strong" and "just": all of the piece is on that
/// side of the line.
#[test]
fn strong_and_just_directions() {
    let sides = [[6, 7, 8], [2, 5, 8], [0, 1, 2], [0, 3, 6]];
    for (d, side) in (0..4).zip(sides) {
        let (strong, just) = (8 + 8 * d, 8 + 8 * d + 6);
        assert!(only_in(strong, &side) > 1_000);
        assert!(only_in(just, &side) > 1_000);
        let strong_bounded = 8 + 8 * d + 2;
        assert!(only_in(strong_bounded, &side[1..2]) > 10);
    }
}

/// "strong corner (north_east)", then south-east, south-west and north-west.
#[test]
fn strong_corners() {
    for (d, corner) in (0..4).zip([8, 2, 0, 6]) {
        assert!(only_in(8 + 8 * d + 4, &[corner]) > 100);
    }
}

/// covered_by, inside and equal: all of the piece is in the reference's own
/// tile, and the other way round all of the reference is in the piece.
#[test]
fn within_the_reference() {
    for relation in [3, 4, 5] {
        assert!(only_in(relation, &[4]) > 100);
    }
    for (piece, reference) in on_a_grid() {
        let (i, j) = configuration(piece, reference);
        if belongs(6, i, j) {
            assert_eq!(areas(piece, reference)[4], reference.area());
        }
    }
}

/// A tile is met exactly where document 01's codes say so: on each axis the
/// piece begins before, ends after, or has a part between the lines.
#[test]
fn the_tiles_met_follow_from_the_configuration() {
    let before = |code: u8| [5, 8, 11, 12, 13].contains(&code);
    let between = |code: u8| (3..=11).contains(&code);
    let after = |code: u8| [1, 2, 3, 4, 5].contains(&code);
    for_many(70, |piece, reference| {
        let (i, j) = configuration(piece, reference);
        let rows = [before(i), between(i), after(i)];
        let columns = [before(j), between(j), after(j)];
        let areas = areas(piece, reference);
        for tile in 0..TILES {
            let is_met = rows[tile / 3] && columns[tile % 3];
            assert_eq!(areas[tile] > 0, is_met, "{piece:?} {reference:?}");
        }
    });
}
