//! Nearest piece: "The operator taps a spot and the nearest piece lights up,
//! even on a slow machine."

use super::pages::{entries, is_leaf, page_bounds, piece_count, root};
use super::rectangles::Rect;
use super::refusals::{ACCEPTED, NO_PIECES, OUT_OF_RANGE};
use super::sizes::{EDGE, PAGES};
use super::soundness;

/// The refusal; the piece's number and squared distance; how many pages were
/// opened; the squared distance of what is left. "An absent piece or page is
/// reported as absent."
pub type Nearest = (u32, Option<(u32, u64)>, u32, Option<u64>);

/// The nearest-piece call: "Return the best piece of the opened leaves .., its
/// squared distance, how many pages were opened, and the least squared distance
/// among unopened reached pages."
pub fn nearest_piece(table: &[u32], x: u32, y: u32, allowance: u32) -> Nearest {
    let refusal = refusal(table, x, y, allowance);
    if refusal != ACCEPTED {
        return (refusal, None, 0, None);
    }
    let opened = opened(table, x, y, allowance);
    let piece = best_piece(table, &opened, x, y).map(|(distance, number)| (number, distance));
    let left = next_page(table, &opened, x, y).map(|(distance, _)| distance);
    (ACCEPTED, piece, opened.len() as u32, left)
}

/// "Order is 1, 6, 13, 14."
fn refusal(table: &[u32], x: u32, y: u32, allowance: u32) -> u32 {
    let of_table = soundness::refusal(table);
    if of_table != ACCEPTED {
        return of_table;
    }
    if !in_range(x, y, allowance) {
        return OUT_OF_RANGE;
    }
    if piece_count(table) == 0 {
        return NO_PIECES;
    }
    ACCEPTED
}

/// "a point, each coordinate at most 1,000,000, and an allowance of 1 to 341
/// pages"
fn in_range(x: u32, y: u32, allowance: u32) -> bool {
    x <= EDGE && y <= EDGE && 1 <= allowance && allowance <= PAGES as u32
}

/// The pages that are opened, in their order: "Stop when the allowance is
/// spent, or when no unopened reached page is nearer than the best piece".
pub fn opened(table: &[u32], x: u32, y: u32, allowance: u32) -> Vec<u32> {
    let mut opened = Vec::new();
    while opened.len() < allowance as usize {
        let best = best_piece(table, &opened, x, y);
        match next_page(table, &opened, x, y) {
            Some((distance, page)) if is_nearer(distance, best) => opened.push(page),
            _ => break,
        }
    }
    opened
}

/// "while there is no piece, every page is nearer"
fn is_nearer(distance: u64, best: Option<(u64, u32)>) -> bool {
    best.is_none_or(|(least, _)| distance < least)
}

/// "always the unopened reached one of least squared distance from point to
/// rectangle, ties to the lower page number": its distance and its number.
fn next_page(table: &[u32], opened: &[u32], x: u32, y: u32) -> Option<(u64, u32)> {
    let reached = reached(table, opened).into_iter();
    let unopened = reached.filter(|page| !opened.contains(page));
    let pages = unopened.map(|page| (page_distance(table, page, x, y), page));
    pages.min()
}

/// "A page is reached when it is the root or its parent has been opened."
fn reached(table: &[u32], opened: &[u32]) -> Vec<u32> {
    let parents = opened.iter().filter(|&&page| !is_leaf(table, page));
    let children = parents.flat_map(|&page| entries(table, page));
    let mut reached = vec![root(table)];
    reached.extend(children.map(|child| child.r));
    reached
}

/// "the best piece of the opened leaves (ties to the lower number)": its
/// distance and its number.
fn best_piece(table: &[u32], opened: &[u32], x: u32, y: u32) -> Option<(u64, u32)> {
    let leaves = opened.iter().filter(|&&page| is_leaf(table, page));
    let entries = leaves.flat_map(|&page| entries(table, page));
    let pieces = entries.map(|piece| (squared_distance(x, y, piece.rect), piece.r));
    pieces.min()
}

/// A page's rectangle is the bounding rectangle of its entries.
fn page_distance(table: &[u32], page: u32, x: u32, y: u32) -> u64 {
    let rect = page_bounds(table, page).expect("a table with pieces has no page without entries");
    squared_distance(x, y, rect)
}

/// The "squared distance from point to rectangle": nothing inside it and on its
/// edge, else the gaps on both axes, squared and added.
pub fn squared_distance(x: u32, y: u32, rect: Rect) -> u64 {
    let on_x = gap(x, rect.x1, rect.x2);
    let on_y = gap(y, rect.y1, rect.y2);
    on_x * on_x + on_y * on_y
}

/// How far a coordinate is from the interval from `low` to `high`.
fn gap(at: u32, low: u32, high: u32) -> u64 {
    if at < low {
        u64::from(low - at)
    } else if at > high {
        u64::from(at - high)
    } else {
        0
    }
}

#[cfg(test)]
mod tests {
    use super::*;
    use crate::tables::{nine_pieces, placed};

    const REFUSED: fn(u32) -> Nearest = |refusal| (refusal, None, 0, None);

    /// Each refusal stands before the next.
    #[test]
    fn the_order_of_refusals() {
        let (nine, empty) = (placed(&nine_pieces()), placed(&[]));
        let mut damaged = nine.clone();
        damaged[2] = 0;
        let far = EDGE + 1;
        assert_eq!(nearest_piece(&damaged[1..], far, 0, 0), REFUSED(1));
        assert_eq!(nearest_piece(&damaged, far, 0, 0), REFUSED(6));
        assert_eq!(nearest_piece(&damaged, 0, 0, 1), REFUSED(6));
        assert_eq!(nearest_piece(&nine, far, 0, 1), REFUSED(13));
        assert_eq!(nearest_piece(&empty, far, 0, 1), REFUSED(13));
        assert_eq!(nearest_piece(&empty, 0, 0, 0), REFUSED(13));
        assert_eq!(nearest_piece(&empty, 0, 0, 1), REFUSED(14));
        assert_eq!(
            nearest_piece(&nine, 0, 0, 2),
            (0, Some((0, 0)), 2, Some(1600))
        );
    }

    #[test]
    fn coordinates_reach_1_000_000_and_allowances_341() {
        let nine = placed(&nine_pieces());
        let asked = |x, y, allowance| nearest_piece(&nine, x, y, allowance).0;
        assert_eq!(asked(EDGE, EDGE, 1), 0);
        assert_eq!(asked(0, 0, 341), 0);
        for far in [EDGE + 1, 1 << 31, u32::MAX] {
            assert_eq!(asked(far, 0, 1), 13);
            assert_eq!(asked(0, far, 1), 13);
            assert_eq!(asked(far, far, 1), 13);
        }
        for allowance in [0, 342, 1 << 16, (1 << 16) + 1, u32::MAX] {
            assert_eq!(asked(0, 0, allowance), 13);
        }
    }

    /// Inside and on the edge, then beside each side and each corner.
    #[test]
    fn distances_from_a_rectangle() {
        let rect = Rect::new(10, 20, 40, 60);
        let distance = |x, y| squared_distance(x, y, rect);
        for (x, y) in [
            (25, 30),
            (10, 30),
            (40, 30),
            (25, 20),
            (25, 60),
            (10, 20),
            (40, 60),
        ] {
            assert_eq!(distance(x, y), 0);
        }
        assert_eq!([distance(7, 30), distance(43, 30)], [9, 9]);
        assert_eq!([distance(25, 16), distance(25, 64)], [16, 16]);
        let corners = [
            distance(7, 16),
            distance(43, 16),
            distance(7, 64),
            distance(43, 64),
        ];
        assert_eq!(corners, [25; 4]);
        assert_eq!(distance(9, 20), 1);
        assert_eq!(distance(41, 61), 2);
    }

    /// From one corner of the cloth to the last unit in the opposite one.
    #[test]
    fn the_largest_distance() {
        let last = Rect::new(EDGE - 1, EDGE - 1, EDGE, EDGE);
        assert_eq!(squared_distance(0, 0, last), 1_999_996_000_002);
        let first = Rect::new(0, 0, 1, 1);
        assert_eq!(squared_distance(EDGE, EDGE, first), 1_999_996_000_002);
    }
}
