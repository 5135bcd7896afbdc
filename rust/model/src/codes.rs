//! Axis codes, and configurations of two rectangles.

use super::rectangles::Rect;
use std::cmp::Ordering;

/// The code of the primary interval p = [p1, p2] with the interval
/// q = [q1, q2] as reference: the first line of the paper's table that fits.
///
/// Only intervals with p1 < p2 and q1 < q2 are asked for.
pub fn code(p1: u32, p2: u32, q1: u32, q2: u32) -> u8 {
    // | 1 | p1 > q2 |
    if p1 > q2 {
        return 1;
    }
    // | 2 | p1 = q2 |
    if p1 == q2 {
        return 2;
    }
    // | 3, 4, 5 | p2 > q2, with q1 < p1 < q2; p1 = q1; p1 < q1 |
    if p2 > q2 {
        return by_start(p1, q1, [3, 4, 5]);
    }
    // | 6, 7, 8 | p2 = q2, with p1 > q1; p1 = q1; p1 < q1 |
    if p2 == q2 {
        return by_start(p1, q1, [6, 7, 8]);
    }
    // | 9, 10, 11 | q1 < p2 < q2, with p1 > q1; p1 = q1; p1 < q1 |
    if q1 < p2 {
        return by_start(p1, q1, [9, 10, 11]);
    }
    // | 12 | p2 = q1 |
    if p2 == q1 {
        return 12;
    }
    // | 13 | p2 < q1 |
    13
}

/// One of three codes: "with p1 > q1; p1 = q1; p1 < q1".
fn by_start(p1: u32, q1: u32, codes: [u8; 3]) -> u8 {
    match p1.cmp(&q1) {
        Ordering::Greater => codes[0],
        Ordering::Equal => codes[1],
        Ordering::Less => codes[2],
    }
}

/// "A configuration is (i, j): i the code on y, j on x; there are 169."
pub fn configuration(p: Rect, q: Rect) -> (u8, u8) {
    let i = code(p.y1, p.y2, q.y1, q.y2);
    let j = code(p.x1, p.x2, q.x1, q.x2);
    (i, j)
}

/// All configurations, in rising order.
pub fn configurations() -> impl Iterator<Item = (u8, u8)> {
    (1..=13).flat_map(|i| (1..=13).map(move |j| (i, j)))
}

/// "Turning an axis round sends 1, 2, 3, 4, 6 to 13, 12, 11, 8, 10 and back,
/// and keeps 5, 7, 9."
pub fn turned(code: u8) -> u8 {
    match code {
        1 => 13,
        2 => 12,
        3 => 11,
        4 => 8,
        6 => 10,
        13 => 1,
        12 => 2,
        11 => 3,
        8 => 4,
        10 => 6,
        kept => kept,
    }
}

#[cfg(test)]
mod tests {
    use super::*;

    const REFERENCE: Rect = Rect::new(100, 100, 200, 200);

    fn to_reference(x1: u32, y1: u32, x2: u32, y2: u32) -> (u8, u8) {
        configuration(Rect::new(x1, y1, x2, y2), REFERENCE)
    }

    #[test]
    fn starred_examples() {
        assert_eq!(to_reference(250, 250, 300, 300), (1, 1));
        assert_eq!(to_reference(200, 100, 300, 200), (7, 2));
        assert_eq!(to_reference(100, 100, 200, 200), (7, 7));
        assert_eq!(to_reference(50, 50, 250, 250), (5, 5));
        assert_eq!(to_reference(120, 150, 180, 250), (3, 9));
        assert_eq!(to_reference(100, 120, 250, 180), (9, 4));
        assert_eq!(to_reference(100, 100, 200, 250), (4, 7));
        assert_eq!(to_reference(100, 100, 200, 150), (10, 7));
    }

    #[test]
    fn there_are_169_configurations() {
        assert_eq!(configurations().count(), 169);
    }

    /// All p and q with p1 < p2 and q1 < q2 up to `top`.
    fn intervals(top: u32) -> impl Iterator<Item = (u32, u32)> {
        (0..top).flat_map(move |a| (a + 1..=top).map(move |b| (a, b)))
    }

    /// The lines of the table, each taken by itself and not as the first.
    fn fits(code: u8, p1: u32, p2: u32, q1: u32, q2: u32) -> bool {
        let within = q1 < p2 && p2 < q2;
        match code {
            1 => p1 > q2,
            2 => p1 == q2,
            3 => p2 > q2 && q1 < p1 && p1 < q2,
            4 => p2 > q2 && p1 == q1,
            5 => p2 > q2 && p1 < q1,
            6 => p2 == q2 && p1 > q1,
            7 => p2 == q2 && p1 == q1,
            8 => p2 == q2 && p1 < q1,
            9 => within && p1 > q1,
            10 => within && p1 == q1,
            11 => within && p1 < q1,
            12 => p2 == q1,
            _ => p2 < q1,
        }
    }

    #[test]
    fn exactly_one_line_fits() {
        for (p1, p2) in intervals(6) {
            for (q1, q2) in intervals(6) {
                let lines: Vec<u8> = (1..=13).filter(|&c| fits(c, p1, p2, q1, q2)).collect();
                assert_eq!(lines, [code(p1, p2, q1, q2)]);
            }
        }
    }

    #[test]
    fn turned_is_the_code_on_the_axis_turned_round() {
        for (p1, p2) in intervals(6) {
            for (q1, q2) in intervals(6) {
                let round = code(6 - p2, 6 - p1, 6 - q2, 6 - q1);
                assert_eq!(turned(code(p1, p2, q1, q2)), round);
            }
        }
        assert!((1..=13).all(|c| turned(turned(c)) == c));
    }

    #[test]
    fn fourteen_less_the_code_swaps_p_and_q_instead() {
        for (p1, p2) in intervals(6) {
            for (q1, q2) in intervals(6) {
                assert_eq!(14 - code(p1, p2, q1, q2), code(q1, q2, p1, p2));
            }
        }
        assert!((1..=13).any(|c| turned(c) != 14 - c));
    }
}
