//! Rectangles: "four 32-bit unsigned numbers x1, y1, x2, y2 in tenths of a
//! millimetre".

use super::sizes::EDGE;

#[derive(Clone, Copy, Debug, PartialEq, Eq, Hash)]
pub struct Rect {
    pub x1: u32,
    pub y1: u32,
    pub x2: u32,
    pub y2: u32,
}

impl Rect {
    pub const fn new(x1: u32, y1: u32, x2: u32, y2: u32) -> Rect {
        Rect { x1, y1, x2, y2 }
    }

    /// "It is valid when x1 < x2, y1 < y2 and none exceeds 1,000,000."
    pub fn is_valid(self) -> bool {
        let edges = [self.x1, self.y1, self.x2, self.y2];
        self.x1 < self.x2 && self.y1 < self.y2 && edges.iter().all(|&edge| edge <= EDGE)
    }

    /// x grows to the east.
    pub fn width(self) -> u64 {
        u64::from(self.x2 - self.x1)
    }

    /// y grows to the north.
    pub fn height(self) -> u64 {
        u64::from(self.y2 - self.y1)
    }

    /// Areas reach 10^12, so they take 64 bits.
    pub fn area(self) -> u64 {
        self.width() * self.height()
    }

    /// The smallest rectangle that holds both.
    pub fn widened(self, other: Rect) -> Rect {
        Rect {
            x1: self.x1.min(other.x1),
            y1: self.y1.min(other.y1),
            x2: self.x2.max(other.x2),
            y2: self.y2.max(other.y2),
        }
    }

    /// How much the area grows "when widened to the new rectangle".
    pub fn growth(self, new: Rect) -> u64 {
        self.widened(new).area() - self.area()
    }
}

/// The bounding rectangle of one or more rectangles; nothing bounds none.
pub fn bounds(rectangles: impl IntoIterator<Item = Rect>) -> Option<Rect> {
    rectangles.into_iter().reduce(Rect::widened)
}

#[cfg(test)]
mod tests {
    use super::*;

    #[test]
    fn examples_of_validity() {
        assert!(Rect::new(0, 0, 1_000_000, 1_000_000).is_valid());
        assert!(Rect::new(999_999, 999_999, 1_000_000, 1_000_000).is_valid());
        assert!(!Rect::new(0, 0, 1_000_001, 1).is_valid());
        assert!(!Rect::new(0, 0, 1, 1_000_001).is_valid());
        assert!(!Rect::new(5, 0, 5, 1).is_valid());
        assert!(!Rect::new(0, 5, 1, 5).is_valid());
        assert!(!Rect::new(6, 0, 5, 1).is_valid());
        assert!(!Rect::new(1_000_001, 0, 1_000_002, 1).is_valid());
        assert!(!Rect::new(0, 0, u32::MAX, u32::MAX).is_valid());
    }

    #[test]
    fn areas_and_growth() {
        assert_eq!(
            Rect::new(0, 0, 1_000_000, 1_000_000).area(),
            1_000_000_000_000
        );
        assert_eq!(Rect::new(0, 0, 2, 2).growth(Rect::new(3, 0, 4, 1)), 4);
        assert_eq!(bounds([]), None);
    }
}
