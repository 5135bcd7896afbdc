//! Points whose nearest piece is known by hand.

use model::nearest::{opened, Nearest};
use model::pages::{page_bounds, piece_count, root};
use model::random::Random;
use model::sizes::EDGE;
use model::tables::{build, nine_pieces, placed, Draft, Fill, Order, Piece};
use model::{nearest_piece, Rect};

/// Pages of four pieces, in the order of the list; their numbers are 0, 1 and so
/// on, and the root's is the last.
fn leaves_of_four(pieces: &[Piece]) -> Vec<u32> {
    build(pieces, Fill::Least, Order::LeavesFirst, &mut Random::new(1))
}

/// The same table, page p with number `numbers[p]`.
fn renumbered(table: &[u32], numbers: &[u32]) -> Vec<u32> {
    let mut draft = Draft::of(table);
    draft.renumber(numbers);
    draft.words()
}

fn found(number: u32, distance: u64, opened: u32, left: u64) -> Nearest {
    (0, Some((number, distance)), opened, Some(left))
}

/// Page 0 has pieces 0 to 3 and is (0, 0, 35, 5), page 1 has pieces 4 to 8 and
/// is (40, 0, 85, 5); the root is page 2.
#[test]
fn among_nine_pieces() {
    let table = placed(&nine_pieces());
    let asked = |x, y| nearest_piece(&table, x, y, 341);
    // On piece 8, and 45 to the east of page 0.
    assert_eq!(asked(80, 0), found(8, 0, 2, 2025));
    // Inside piece 2, and 17 to the west of page 1.
    assert_eq!(asked(23, 3), found(2, 0, 2, 289));
    // 2 to the east of page 0 and of piece 3, 3 to the west of page 1.
    assert_eq!(asked(37, 2), found(3, 4, 2, 9));
    // 3 and 4 from piece 3, 2 and 4 from piece 4.
    assert_eq!(asked(38, 9), found(4, 20, 2, 25));
    // 1 from piece 2 and 4 from piece 3, inside page 0.
    assert_eq!(asked(26, 5), found(2, 1, 2, 196));
    // Far in the north east: 915 from piece 8 on x, 965 from page 0.
    assert_eq!(asked(1000, 5), found(8, 837_225, 2, 931_225));
}

/// "Stop when the allowance is spent": with 1 the root alone is opened, which is
/// no leaf; with 2 one of the two leaves.
#[test]
fn nine_pieces_and_small_allowances() {
    let table = placed(&nine_pieces());
    let asked = |x, y, allowance| nearest_piece(&table, x, y, allowance);
    assert_eq!(asked(80, 0, 1), (0, None, 1, Some(0)));
    assert_eq!(asked(37, 2, 1), (0, None, 1, Some(4)));
    assert_eq!(asked(1000, 5, 1), (0, None, 1, Some(837_225)));
    assert_eq!(asked(37, 2, 2), found(3, 4, 2, 9));
    assert_eq!(asked(37, 2, 3), found(3, 4, 2, 9));
    assert_eq!(opened(&table, 37, 2, 341), [2, 0]);
    assert_eq!(opened(&table, 38, 9, 341), [2, 1]);
}

/// A near page may have no near piece: page 0 is 2 from the point, its pieces
/// are 52 and more.
#[test]
fn a_page_opened_in_vain() {
    let table = leaves_of_four(&[
        (0, Rect::new(0, 0, 10, 10)),
        (1, Rect::new(20, 0, 30, 10)),
        (2, Rect::new(40, 0, 50, 10)),
        (3, Rect::new(90, 90, 100, 100)),
        (4, Rect::new(104, 10, 110, 20)),
        (5, Rect::new(120, 10, 130, 20)),
        (6, Rect::new(120, 30, 130, 40)),
        (7, Rect::new(120, 50, 130, 60)),
    ]);
    // Page 0 is (0, 0, 100, 100), page 1 is (104, 10, 130, 60).
    assert_eq!(opened(&table, 102, 15, 341), [2, 0, 1]);
    assert_eq!(nearest_piece(&table, 102, 15, 1), (0, None, 1, Some(4)));
    // Piece 2 is 52 and 5 away, piece 3 is 2 and 75 away.
    assert_eq!(nearest_piece(&table, 102, 15, 2), found(2, 2729, 2, 4));
    assert_eq!(
        nearest_piece(&table, 102, 15, 3),
        (0, Some((4, 4)), 3, None)
    );
    // From the other side page 1 is enough.
    assert_eq!(nearest_piece(&table, 103, 15, 341), found(4, 1, 2, 9));
}

/// Two pages 10 from the point (100, 5), each with a piece as near.
fn two_sides() -> Vec<u32> {
    leaves_of_four(&[
        (10, Rect::new(0, 0, 10, 10)),
        (11, Rect::new(20, 0, 30, 10)),
        (12, Rect::new(40, 0, 50, 10)),
        (13, Rect::new(60, 0, 90, 10)),
        (4, Rect::new(110, 0, 140, 10)),
        (5, Rect::new(150, 0, 160, 10)),
        (6, Rect::new(170, 0, 180, 10)),
        (7, Rect::new(190, 0, 200, 10)),
    ])
}

/// "ties to the lower page number". The other page is then no nearer than the
/// piece, and stays shut; so a higher piece number is returned than the lowest
/// of those as near.
#[test]
fn two_pages_as_near() {
    let west_first = two_sides();
    assert_eq!(opened(&west_first, 100, 5, 341), [2, 0]);
    assert_eq!(
        nearest_piece(&west_first, 100, 5, 341),
        found(13, 100, 2, 100)
    );

    let east_first = renumbered(&west_first, &[1, 0, 2]);
    assert_eq!(opened(&east_first, 100, 5, 341), [2, 0]);
    assert_eq!(
        nearest_piece(&east_first, 100, 5, 341),
        found(4, 100, 2, 100)
    );

    let root_first = renumbered(&west_first, &[2, 1, 0]);
    assert_eq!(opened(&root_first, 100, 5, 341), [0, 1]);
    assert_eq!(
        nearest_piece(&root_first, 100, 5, 341),
        found(4, 100, 2, 100)
    );
}

/// "ties to the lower number", wherever it stands in the leaf.
#[test]
fn two_pieces_as_near_in_one_leaf() {
    for (west, east) in [(3, 8), (8, 3)] {
        let table = placed(&[
            (west, Rect::new(0, 0, 10, 10)),
            (east, Rect::new(20, 0, 30, 10)),
        ]);
        assert_eq!(nearest_piece(&table, 15, 5, 1), (0, Some((3, 25)), 1, None));
        assert_eq!(
            nearest_piece(&table, 14, 5, 1),
            (0, Some((west, 16)), 1, None)
        );
        assert_eq!(
            nearest_piece(&table, 16, 5, 1),
            (0, Some((east, 16)), 1, None)
        );
    }
}

/// The point lies in both pages and in no piece: one is 10 to the south in page
/// 0, the other 10 to the north in page 1.
#[test]
fn two_pieces_as_near_in_two_leaves() {
    for (south, north) in [(1, 5), (5, 1)] {
        let table = leaves_of_four(&[
            (20, Rect::new(0, 0, 10, 10)),
            (21, Rect::new(90, 90, 100, 100)),
            (south, Rect::new(40, 0, 60, 40)),
            (23, Rect::new(0, 90, 10, 100)),
            (north, Rect::new(40, 60, 60, 100)),
            (25, Rect::new(0, 0, 5, 5)),
            (26, Rect::new(95, 95, 100, 100)),
            (27, Rect::new(0, 95, 5, 100)),
        ]);
        assert_eq!(opened(&table, 50, 50, 341), [2, 0, 1]);
        assert_eq!(nearest_piece(&table, 50, 50, 1), (0, None, 1, Some(0)));
        assert_eq!(nearest_piece(&table, 50, 50, 2), found(south, 100, 2, 0));
        assert_eq!(
            nearest_piece(&table, 50, 50, 3),
            (0, Some((1, 100)), 3, None)
        );
    }
}

/// One piece: the root is the only leaf. Its page is always opened, however far.
#[test]
fn one_piece() {
    let table = placed(&[(1023, Rect::new(999_999, 999_999, EDGE, EDGE))]);
    for allowance in [1, 2, 341] {
        let asked = |x, y| nearest_piece(&table, x, y, allowance);
        let only = |distance| (0, Some((1023, distance)), 1, None);
        assert_eq!(asked(0, 0), only(1_999_996_000_002));
        assert_eq!(asked(0, EDGE), only(999_998_000_001));
        assert_eq!(asked(EDGE, 0), only(999_998_000_001));
        assert_eq!(asked(EDGE, EDGE), only(0));
        assert_eq!(asked(999_999, 999_998), only(1));
    }
}

/// The whole cloth as a piece: 0 everywhere.
#[test]
fn a_piece_as_large_as_the_cloth() {
    let table = placed(&[(7, Rect::new(0, 0, EDGE, EDGE))]);
    for (x, y) in [(0, 0), (0, EDGE), (EDGE, 0), (EDGE, EDGE), (3, 500_000)] {
        assert_eq!(nearest_piece(&table, x, y, 341), (0, Some((7, 0)), 1, None));
    }
}

/// Every page holds the point, and no piece does: all 341 pages are opened, from
/// the root, which is the last, down by page number. Each four pieces lie round
/// the point, those of leaf f 300 - f units away.
#[test]
fn all_pages_opened() {
    let (x, y) = (500, 500);
    let mut pieces = Vec::new();
    for four in 0..256 {
        let (near, far) = (300 - four, 301 - four);
        let first = 4 * four;
        pieces.extend([
            (first, Rect::new(x, y + near, x + 1, y + far)),
            (first + 1, Rect::new(x + near, y - 1, x + far, y)),
            (first + 2, Rect::new(x - 1, y - far, x, y - near)),
            (first + 3, Rect::new(x - far, y, x - near, y + 1)),
        ]);
    }
    let table = leaves_of_four(&pieces);
    assert_eq!((piece_count(&table), root(&table)), (1024, 340));
    let bounds = page_bounds(&table, 0).unwrap();
    assert_eq!(bounds, Rect::new(199, 199, 801, 801));

    // Levels 4 to 1 have 1, 4, 16 and 64 pages. Of each the first page leads
    // down to leaf 0; then the leaves of the first page of level 1 come.
    let order = opened(&table, x, y, 341);
    assert_eq!(order[..9], [340, 336, 320, 256, 0, 1, 2, 3, 257]);
    let mut sorted = order.clone();
    sorted.sort_unstable();
    assert!(sorted.into_iter().eq(0..341));

    let asked = |allowance| nearest_piece(&table, x, y, allowance);
    for allowance in 1..=4 {
        assert_eq!(asked(allowance), (0, None, allowance, Some(0)));
    }
    assert_eq!(asked(5), found(0, 300 * 300, 5, 0));
    assert_eq!(asked(8), found(12, 297 * 297, 8, 0));
    assert_eq!(asked(9), found(12, 297 * 297, 9, 0));
    assert_eq!(asked(10), found(16, 296 * 296, 10, 0));
    assert_eq!(asked(340), found(1016, 46 * 46, 340, 0));
    assert_eq!(asked(341), (0, Some((1020, 45 * 45)), 341, None));
}
