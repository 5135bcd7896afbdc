//! Outlines to try the calls on: some that cross themselves, some that do not,
//! and some without any inside.

use crate::outlines::Point;
use crate::random::Random;

/// Kinds of outlines.
#[derive(Clone, Copy, Debug, PartialEq, Eq)]
pub enum Shape {
    /// Points anywhere.
    Anywhere,
    /// Every coordinate the smallest or the largest.
    Extreme,
    /// One to three points, again and again.
    Repeated,
    /// All points at one height.
    Level,
    /// All points above one another.
    Upright,
    /// All points on one slanting line.
    Slanting,
    /// Around a middle that sees every edge.
    Star,
    /// The points of a star in any order.
    Crossing,
    /// Two lines from the west to the east, one below the other.
    Monotone,
    /// Bars of any height, side by side on one base.
    Skyline,
}

/// Half the side of the square of 64 points around the middle of a star.
const RING: u32 = 8;

impl Shape {
    pub const ALL: [Shape; 10] = [
        Shape::Anywhere,
        Shape::Extreme,
        Shape::Repeated,
        Shape::Level,
        Shape::Upright,
        Shape::Slanting,
        Shape::Star,
        Shape::Crossing,
        Shape::Monotone,
        Shape::Skyline,
    ];

    /// Those that never cross nor touch themselves. They run counter-clockwise.
    pub const SIMPLE: [Shape; 3] = [Shape::Star, Shape::Monotone, Shape::Skyline];

    /// Those whose points are all on one line.
    pub const FLAT: [Shape; 3] = [Shape::Level, Shape::Upright, Shape::Slanting];

    /// The words of an outline of this kind: `count` points, 3 to 64, with
    /// coordinates 0 to `size`, which is above `count` and at least 16.
    pub fn outline(self, count: usize, size: u32, random: &mut Random) -> Vec<u32> {
        let points = match self {
            Shape::Anywhere => anywhere(count, size, random),
            Shape::Extreme => extreme(count, size, random),
            Shape::Repeated => repeated(count, size, random),
            Shape::Level | Shape::Upright | Shape::Slanting => self.flat(count, size, random),
            Shape::Star => star(count, size, random),
            Shape::Crossing => {
                let mut points = star(count, size, random);
                random.shuffle(&mut points);
                points
            }
            Shape::Monotone => monotone(count, size, random),
            Shape::Skyline => skyline(count, size, random),
        };
        words(&points)
    }

    fn flat(self, count: usize, size: u32, random: &mut Random) -> Vec<Point> {
        let fixed = random.between(0, size);
        let (across, up) = *random.pick(&[(1, 1), (1, 2), (2, 1), (3, 2), (1, 5)]);
        let falls = random.one_in(2);
        let mut point = || match self {
            Shape::Level => Point::new(random.between(0, size), fixed),
            Shape::Upright => Point::new(fixed, random.between(0, size)),
            _ => {
                let steps = random.between(0, size / 5);
                let y = steps * up;
                Point::new(steps * across, if falls { size - y } else { y })
            }
        };
        (0..count).map(|_| point()).collect()
    }
}

/// The points as words x, y in turn.
pub fn words(points: &[Point]) -> Vec<u32> {
    points.iter().flat_map(|point| [point.x, point.y]).collect()
}

/// Points anywhere, also on a grid smaller than the other kinds need.
pub fn anywhere(count: usize, size: u32, random: &mut Random) -> Vec<Point> {
    let mut point = || Point::new(random.between(0, size), random.between(0, size));
    (0..count).map(|_| point()).collect()
}

fn extreme(count: usize, size: u32, random: &mut Random) -> Vec<Point> {
    let mut point = || Point::new(random.below(2) * size, random.below(2) * size);
    (0..count).map(|_| point()).collect()
}

fn repeated(count: usize, size: u32, random: &mut Random) -> Vec<Point> {
    let few = anywhere(random.between(1, 3) as usize, size, random);
    (0..count).map(|_| *random.pick(&few)).collect()
}

/// One point each in `count` of the 64 directions to the ring, less than half
/// a turn from one to the next.
fn star(count: usize, size: u32, random: &mut Random) -> Vec<Point> {
    let ring = ring();
    let middle = size / 2;
    let point = |place: usize| {
        let times = random.between(1, middle / RING);
        let at = ring[place * ring.len() / count];
        let away = |on_ring| middle + times * on_ring - times * RING;
        Point::new(away(at.x), away(at.y))
    };
    (0..count).map(point).collect()
}

/// The 64 points on the sides of a square, counter-clockwise; its middle is at
/// (8, 8).
fn ring() -> Vec<Point> {
    let side = 2 * RING;
    let south = (0..side).map(|step| Point::new(step, 0));
    let east = (0..side).map(|step| Point::new(side, step));
    let north = (0..side).map(|step| Point::new(side - step, side));
    let west = (0..side).map(|step| Point::new(0, side - step));
    south.chain(east).chain(north).chain(west).collect()
}

/// From a point in the west over points below its height to a point in the
/// east at the same height, and over points above it back.
fn monotone(count: usize, size: u32, random: &mut Random) -> Vec<Point> {
    let height = random.between(1, size - 1);
    let below = random.below(count as u32 - 1) as usize;
    let above = count - 2 - below;
    let mut points = vec![Point::new(0, height)];
    for x in rising(below, size, random) {
        points.push(Point::new(x, random.below(height)));
    }
    points.push(Point::new(size, height));
    for x in rising(above, size, random).into_iter().rev() {
        points.push(Point::new(x, random.between(height + 1, size)));
    }
    points
}

/// Bars on a base at height 0, from the east to the west. The last bar of an
/// odd count slants down to the base.
fn skyline(count: usize, size: u32, random: &mut Random) -> Vec<Point> {
    let bars = (count - 1) / 2;
    let mut sides = vec![0];
    sides.extend(rising(bars - 1, size, random));
    sides.push(size);
    let mut points = vec![Point::new(0, 0), Point::new(size, 0)];
    for bar in sides.windows(2).rev() {
        let height = random.between(1, size);
        points.extend([Point::new(bar[1], height), Point::new(bar[0], height)]);
    }
    points.truncate(count);
    points
}

/// So many different numbers above 0 and below `size`, rising.
fn rising(count: usize, size: u32, random: &mut Random) -> Vec<u32> {
    let mut numbers = std::collections::BTreeSet::new();
    while numbers.len() < count {
        numbers.insert(random.between(1, size - 1));
    }
    numbers.into_iter().collect()
}

#[cfg(test)]
mod tests {
    use super::*;
    use crate::outlines::outline_area;
    use crate::sizes::{EDGE, POINTS, POINTS_FEWEST};

    #[test]
    fn outlines_have_their_points_and_are_accepted() {
        let mut random = Random::new(1);
        for shape in Shape::ALL {
            for count in POINTS_FEWEST..=POINTS {
                for size in [count as u32 + 16, 1000, EDGE] {
                    let words = shape.outline(count, size, &mut random);
                    assert_eq!(words.len(), 2 * count, "{shape:?}");
                    assert!(words.iter().all(|&word| word <= size), "{shape:?}");
                    assert_eq!(outline_area(&words).0, 0);
                }
            }
        }
    }

    #[test]
    fn the_ring_has_64_points_around_its_middle() {
        let ring = ring();
        assert_eq!(ring.len(), POINTS);
        let to_next = outline_area(&words(&ring)).1;
        assert_eq!(to_next, 2 * i64::from(4 * RING * RING));
    }
}
