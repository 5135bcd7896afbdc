//! Which codes intervals inside a page can have: the thirteen sets, and the
//! quarter-unit rule of demand 2 that they stand for.

use super::clauses::{holds, Rows};
use super::codes::{code, configuration};
use super::rectangles::Rect;
use super::sizes::CODES;

/// "There are thirteen sets, one for each axis code of the page, holding the
/// codes of intervals inside it".
pub const INSIDE: [&[u8]; CODES] = [
    // 1 {1}
    &[1],
    // 2 {1, 2}
    &[1, 2],
    // 3 {1, 2, 3, 6, 9}
    &[1, 2, 3, 6, 9],
    // 4 {1, 2, 3, 4, 6, 7, 9, 10}
    &[1, 2, 3, 4, 6, 7, 9, 10],
    // 5 all
    &[1, 2, 3, 4, 5, 6, 7, 8, 9, 10, 11, 12, 13],
    // 6 {6, 9}
    &[6, 9],
    // 7 {6, 7, 9, 10}
    &[6, 7, 9, 10],
    // 8 {6 to 13}
    &[6, 7, 8, 9, 10, 11, 12, 13],
    // 9 {9}
    &[9],
    // 10 {9, 10}
    &[9, 10],
    // 11 {9 to 13}
    &[9, 10, 11, 12, 13],
    // 12 {12, 13}
    &[12, 13],
    // 13 {13}
    &[13],
];

/// The set for a page with this code.
pub fn inside(page_code: u8) -> &'static [u8] {
    INSIDE[usize::from(page_code - 1)]
}

/// Whether some rectangle inside a page at configuration (i, j) could stand
/// in an admitted one. Both codes are taken together: "Testing y and x apart"
/// is a slip of this trade.
pub fn may_hold(rows: &Rows, (i, j): (u8, u8)) -> bool {
    inside(i)
        .iter()
        .any(|&a| inside(j).iter().any(|&b| holds(rows, a, b)))
}

/// The page test of demand 2, by the thirteen sets.
pub fn opens(rows: &Rows, page: Rect, reference: Rect) -> bool {
    may_hold(rows, configuration(page, reference))
}

/// All intervals "with corners on quarter units" within [p1, p2], counted in
/// quarters. "Its rectangles too have x1 < x2 and y1 < y2."
fn quarter_intervals(p1: u32, p2: u32) -> impl Iterator<Item = (u32, u32)> {
    (4 * p1..4 * p2).flat_map(move |a| (a + 1..=4 * p2).map(move |b| (a, b)))
}

/// The quarter-unit rule on one axis, by brute force: the codes to [q1, q2] of
/// all the quarter-unit intervals within [p1, p2], rising. For small intervals.
pub fn quarter_codes(p1: u32, p2: u32, q1: u32, q2: u32) -> Vec<u8> {
    let found: Vec<u8> = quarter_intervals(p1, p2)
        .map(|(a, b)| code(a, b, 4 * q1, 4 * q2))
        .collect();
    (1..=13).filter(|code| found.contains(code)).collect()
}

/// The page test of demand 2, word for word and by brute force: whether "some
/// rectangle within its own, with corners on quarter units, could stand in
/// such a configuration". For small rectangles.
pub fn opens_by_quarters(rows: &Rows, page: Rect, reference: Rect) -> bool {
    let q = in_quarters(reference);
    quarter_intervals(page.y1, page.y2).any(|(y1, y2)| {
        quarter_intervals(page.x1, page.x2).any(|(x1, x2)| {
            let (i, j) = configuration(Rect::new(x1, y1, x2, y2), q);
            holds(rows, i, j)
        })
    })
}

fn in_quarters(r: Rect) -> Rect {
    Rect::new(4 * r.x1, 4 * r.y1, 4 * r.x2, 4 * r.y2)
}

#[cfg(test)]
mod tests {
    use super::super::clauses::rows;
    use super::*;

    fn intervals(top: u32) -> impl Iterator<Item = (u32, u32)> {
        (0..top).flat_map(move |a| (a + 1..=top).map(move |b| (a, b)))
    }

    /// "That the sets equal the quarter-unit rule is to be shown."
    #[test]
    fn the_thirteen_sets_equal_the_quarter_unit_rule() {
        let mut met = [false; CODES];
        for (p1, p2) in intervals(7) {
            for (q1, q2) in intervals(7) {
                let page_code = code(p1, p2, q1, q2);
                assert_eq!(quarter_codes(p1, p2, q1, q2), inside(page_code));
                met[usize::from(page_code - 1)] = true;
            }
        }
        assert_eq!(met, [true; CODES]);
    }

    #[test]
    fn the_page_test_equals_the_quarter_unit_rule() {
        let wishes: [&[u64]; 8] = [
            &[1 << 5],
            &[1 << 4],
            &[1 << 2, 1 << 15],
            &[1 << 5 | 1 << 12],
            &[1 << 18, 1 << 23],
            &[1 << 6, 1 << 33 | 1 << 22],
            &[1 << 37, 1 << 1],
            &[1 << 5, 1 << 7],
        ];
        let reference = Rect::new(2, 2, 4, 4);
        for clauses in wishes {
            let rows = rows(clauses);
            for (x1, x2) in intervals(6) {
                for (y1, y2) in intervals(6).filter(|(y1, y2)| y2 - y1 < 4) {
                    let page = Rect::new(x1, y1, x2, y2);
                    let by_quarters = opens_by_quarters(&rows, page, reference);
                    assert_eq!(opens(&rows, page, reference), by_quarters, "{page:?}");
                }
            }
        }
    }

    /// "for {(7, 7), (1, 1)} a page at (1, 7) passes both, yet holds no
    /// candidate."
    #[test]
    fn the_axes_are_tested_together() {
        let rows = rows(&[1 << 5 | 1 << 12]);
        assert!(holds(&rows, 7, 7) && holds(&rows, 1, 1));
        assert!(!may_hold(&rows, (1, 7)));
        assert!(may_hold(&rows, (1, 4)));
    }

    /// "For \"equal and contains\" .. none below the root opens."
    #[test]
    fn nothing_opens_for_an_empty_set() {
        let rows = rows(&[1 << 5, 1 << 7]);
        assert!(!may_hold(&rows, (5, 5)));
    }
}
