//! Turned lays: "A marker may be spread along the cloth or across it."

use super::rectangles::Rect;
use super::sizes::EDGE;

/// What stands for the turned one of a rectangle that is not valid: it is not
/// valid either.
pub const NO_RECT: Rect = Rect::new(0, 0, 0, 0);

/// The turned-rectangle call: "Send each rectangle, the reference too, to
/// (y1, 1,000,000 - x2, y2, 1,000,000 - x1)".
pub fn turned_rect(rect: Rect) -> Rect {
    if !rect.is_valid() {
        return NO_RECT;
    }
    Rect::new(rect.y1, EDGE - rect.x2, rect.y2, EDGE - rect.x1)
}

/// The turned-clause call: for each relation that the clause names, the turned
/// one is named. A bit from 40 on stands for no relation and is refused; it
/// stays, to be refused as before.
pub fn turned_clause(clause: u64) -> u64 {
    let bits = (0..u64::BITS).filter(|t| clause >> t & 1 == 1);
    bits.fold(0, |turned, t| turned | 1 << turned_relation(t))
}

/// Relation 8 + 8 times d + k goes to the same kind k of the next direction. A
/// topological relation has no direction: it stays.
pub fn turned_relation(t: u32) -> u32 {
    match t {
        8..=39 => 8 + 8 * next_direction((t - 8) / 8) + (t - 8) % 8,
        stays => stays,
    }
}

/// "and each direction d to d + 1, with 4 meaning 0"
fn next_direction(d: u32) -> u32 {
    match d + 1 {
        4 => 0,
        next => next,
    }
}

#[cfg(test)]
mod tests {
    use super::*;

    /// The unit square in the south west goes round by the north.
    #[test]
    fn the_corners_of_the_cloth() {
        let last = EDGE - 1;
        let corners = [
            Rect::new(0, 0, 1, 1),
            Rect::new(0, last, 1, EDGE),
            Rect::new(last, last, EDGE, EDGE),
            Rect::new(last, 0, EDGE, 1),
        ];
        for turn in 0..4 {
            assert_eq!(turned_rect(corners[turn]), corners[(turn + 1) % 4]);
        }
        let cloth = Rect::new(0, 0, EDGE, EDGE);
        assert_eq!(turned_rect(cloth), cloth);
    }

    #[test]
    fn four_turns_of_one_rectangle() {
        let turns = [
            Rect::new(5, 0, 20, 7),
            Rect::new(0, 999_980, 7, 999_995),
            Rect::new(999_980, 999_993, 999_995, 1_000_000),
            Rect::new(999_993, 5, 1_000_000, 20),
        ];
        for turn in 0..4 {
            assert_eq!(turned_rect(turns[turn]), turns[(turn + 1) % 4]);
        }
    }

    #[test]
    fn what_is_not_valid_is_not_turned() {
        let not_valid = [
            NO_RECT,
            Rect::new(5, 0, 5, 7),
            Rect::new(5, 7, 20, 7),
            Rect::new(20, 0, 5, 7),
            Rect::new(5, 0, EDGE + 1, 7),
            Rect::new(5, 0, 20, u32::MAX),
            Rect::new(u32::MAX, u32::MAX, u32::MAX, u32::MAX),
        ];
        for rect in not_valid {
            assert_eq!(turned_rect(rect), Rect::new(0, 0, 0, 0));
        }
        assert!(!NO_RECT.is_valid());
    }

    /// "d = 0 north, 1 east, 2 south, 3 west", each kind by itself.
    #[test]
    fn directions_go_round() {
        for k in 0..8 {
            let [north, east, south, west] = [8 + k, 16 + k, 24 + k, 32 + k];
            assert_eq!(turned_clause(1 << north), 1 << east);
            assert_eq!(turned_clause(1 << east), 1 << south);
            assert_eq!(turned_clause(1 << south), 1 << west);
            assert_eq!(turned_clause(1 << west), 1 << north);
        }
    }

    #[test]
    fn other_bits_stay() {
        for bit in (0..8).chain(40..64) {
            assert_eq!(turned_clause(1 << bit), 1 << bit);
        }
        assert_eq!(turned_clause(0), 0);
        assert_eq!(turned_clause(u64::MAX), u64::MAX);
    }

    /// Overlap, plain north, strong west and bit 40 in one clause.
    #[test]
    fn each_named_relation_is_turned() {
        let clause = 1 << 2 | 1 << 15 | 1 << 32 | 1 << 40;
        assert_eq!(turned_clause(clause), 1 << 2 | 1 << 23 | 1 << 8 | 1 << 40);
    }
}
