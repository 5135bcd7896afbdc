//! Pieces whose shares among the tiles are known by hand.

use model::sizes::EDGE;
use model::{tile_shares, Rect};

/// Areas, quotients and remainders of an accepted call.
fn shares(piece: Rect, reference: Rect) -> ([u64; 9], [u64; 9], [u64; 9]) {
    let (refusal, areas, thousandths, remainders) = tile_shares(piece, reference);
    assert_eq!(refusal, 0);
    (areas, thousandths, remainders)
}

fn areas(piece: Rect, reference: Rect) -> [u64; 9] {
    shares(piece, reference).0
}

/// Nine squares of the same size: 1,000 is 9 times 111 and 1.
#[test]
fn three_times_three_round_a_unit() {
    let found = shares(Rect::new(4, 4, 7, 7), Rect::new(5, 5, 6, 6));
    assert_eq!(found, ([1; 9], [111; 9], [1; 9]));
}

/// The columns are 1, 2 and 4 wide, the rows 8, 16 and 32 high: every tile has
/// an area of its own.
#[test]
fn every_tile_has_its_place() {
    let (areas, thousandths, remainders) =
        shares(Rect::new(9, 2, 16, 58), Rect::new(10, 10, 12, 26));
    assert_eq!(areas, [8, 16, 32, 16, 32, 64, 32, 64, 128]);
    assert_eq!(thousandths, [20, 40, 81, 40, 81, 163, 81, 163, 326]);
    assert_eq!(
        remainders,
        [160, 320, 248, 320, 248, 104, 248, 104, 208],
        "of 392"
    );
}

/// A piece in one tile alone has 1,000 thousandths there, also where it
/// touches a line of the reference or a corner of it.
#[test]
fn wholly_in_each_tile() {
    let reference = Rect::new(100, 100, 200, 200);
    let apart = [(20, 60), (120, 180), (250, 300)];
    let touching = [(60, 100), (100, 200), (200, 201)];
    for ends in [apart, touching] {
        for tile in 0..9 {
            let ((x1, x2), (y1, y2)) = (ends[tile % 3], ends[tile / 3]);
            let piece = Rect::new(x1, y1, x2, y2);
            let mut expected = ([0; 9], [0; 9], [0; 9]);
            expected.0[tile] = piece.area();
            expected.1[tile] = 1_000;
            assert_eq!(shares(piece, reference), expected, "tile {tile}");
        }
    }
}

/// 3 of 7 columns are west of the line at x = 100, 4 are not; all rows are
/// between the lines. Then the same of each other line.
#[test]
fn across_one_line() {
    let reference = Rect::new(100, 100, 200, 200);
    let across = |piece: Rect| {
        let (areas, thousandths, remainders) = shares(piece, reference);
        let met = (0..9).filter(|&tile| areas[tile] > 0);
        met.map(|tile| (tile, areas[tile], thousandths[tile], remainders[tile]))
            .collect::<Vec<_>>()
    };
    let west = across(Rect::new(97, 120, 104, 130));
    assert_eq!(west, [(3, 30, 428, 40), (4, 40, 571, 30)]);
    let east = across(Rect::new(197, 120, 204, 130));
    assert_eq!(east, [(4, 30, 428, 40), (5, 40, 571, 30)]);
    let south = across(Rect::new(120, 97, 130, 104));
    assert_eq!(south, [(1, 30, 428, 40), (4, 40, 571, 30)]);
    let north = across(Rect::new(120, 197, 130, 204));
    assert_eq!(north, [(4, 30, 428, 40), (7, 40, 571, 30)]);
    let east_of_north = across(Rect::new(197, 300, 204, 310));
    assert_eq!(east_of_north, [(7, 30, 428, 40), (8, 40, 571, 30)]);
}

/// Edges on the lines: nothing is beyond them.
#[test]
fn edges_that_coincide() {
    let reference = Rect::new(10, 20, 40, 60);
    let whole = reference.area();
    let only = |tile: usize, area: u64| {
        let mut areas = [0; 9];
        areas[tile] = area;
        areas
    };
    assert_eq!(areas(reference, reference), only(4, whole));
    assert_eq!(areas(Rect::new(10, 20, 30, 60), reference), only(4, 800));
    assert_eq!(areas(Rect::new(0, 0, 10, 20), reference), only(0, 200));
    assert_eq!(areas(Rect::new(10, 60, 40, 61), reference), only(7, 30));
    assert_eq!(areas(Rect::new(40, 60, 42, 61), reference), only(8, 2));
    let to_the_north = areas(Rect::new(10, 20, 40, 70), reference);
    assert_eq!(to_the_north, [0, 0, 0, 0, whole, 0, 0, 300, 0]);
    let to_the_west = areas(Rect::new(5, 20, 40, 60), reference);
    assert_eq!(to_the_west, [0, 0, 0, 200, whole, 0, 0, 0, 0]);
}

/// The whole cloth round the unit in its middle: the south and the west have
/// 500,000 units, the north and the east one less.
#[test]
fn the_largest_piece_round_a_unit() {
    let half = EDGE / 2;
    let piece = Rect::new(0, 0, EDGE, EDGE);
    let (areas, thousandths, remainders) = shares(piece, Rect::new(half, half, half + 1, half + 1));
    let (corner, side) = (250_000_000_000, 500_000);
    let short = 249_999_500_000;
    let north_east = 249_999_000_001;
    assert_eq!(areas[..3], [corner, side, short]);
    assert_eq!(areas[3..6], [side, 1, side - 1]);
    assert_eq!(areas[6..], [short, side - 1, north_east]);
    assert_eq!(thousandths, [250, 0, 249, 0, 0, 0, 249, 0, 249]);
    assert_eq!(remainders[..3], [0, 500_000_000, 999_500_000_000]);
    assert_eq!(remainders[3..6], [500_000_000, 1_000, 499_999_000]);
    assert_eq!(
        remainders[6..],
        [999_500_000_000, 499_999_000, 999_000_001_000]
    );
}

/// No tile is left over on the sides where the reference ends with the cloth.
#[test]
fn a_reference_at_the_edge_of_the_cloth() {
    let piece = Rect::new(0, 0, EDGE, EDGE);
    let areas_by = |x1, y1, x2, y2| areas(piece, Rect::new(x1, y1, x2, y2));
    let rest = 999_999;
    let south_west = areas_by(0, 0, 1, 1);
    assert_eq!(south_west, [0, 0, 0, 0, 1, rest, 0, rest, rest * rest]);
    let north_east = areas_by(EDGE - 1, EDGE - 1, EDGE, EDGE);
    assert_eq!(north_east, [rest * rest, rest, 0, rest, 1, 0, 0, 0, 0]);
    let south = areas_by(0, 0, EDGE, 1);
    assert_eq!(south, [0, 0, 0, 0, 1_000_000, 0, 0, rest * 1_000_000, 0]);
    let east = areas_by(EDGE - 1, 0, EDGE, EDGE);
    assert_eq!(east, [0, 0, 0, rest * 1_000_000, 1_000_000, 0, 0, 0, 0]);
    let all = areas_by(0, 0, EDGE, EDGE);
    assert_eq!(all, [0, 0, 0, 0, 1_000_000_000_000, 0, 0, 0, 0]);
}

/// A quotient is cut, not rounded: one unit square of 1,001 is 0 thousandths
/// and 1,000 over, the other 1,000 are 999 and 1 over.
#[test]
fn quotients_are_whole() {
    let (areas, thousandths, remainders) =
        shares(Rect::new(4, 7, 1_005, 8), Rect::new(5, 7, 1_005, 8));
    assert_eq!(areas[3..5], [1, 1_000]);
    assert_eq!(thousandths[3..5], [0, 999]);
    assert_eq!(remainders[3..5], [1_000, 1]);
}

/// The order of the numbers is piece, reference.
#[test]
fn the_piece_stands_first() {
    let (small, large) = (Rect::new(4, 4, 6, 6), Rect::new(3, 3, 9, 9));
    assert_eq!(areas(small, large), [0, 0, 0, 0, 4, 0, 0, 0, 0]);
    assert_eq!(areas(large, small), [1, 2, 3, 2, 4, 6, 3, 6, 9]);
}
