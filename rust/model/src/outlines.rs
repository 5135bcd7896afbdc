//! Outlines: twice their signed area, and where a point lies.

use super::fractions::Fraction;
use super::refusals::{ACCEPTED, COORDINATE_TOO_LARGE, POINT_COUNT};
use super::sizes::{EDGE, POINTS, POINTS_FEWEST};

/// "on the outline, inside or outside", as numbers.
pub const ON: u32 = 1;
pub const INSIDE: u32 = 2;
pub const OUTSIDE: u32 = 3;

#[derive(Clone, Copy, Debug, PartialEq, Eq, Hash)]
pub struct Point {
    pub x: u32,
    pub y: u32,
}

impl Point {
    pub const fn new(x: u32, y: u32) -> Point {
        Point { x, y }
    }
}

/// An edge "from (a, b) to (c, d)"; both ends may be the same point.
#[derive(Clone, Copy, Debug)]
pub struct Edge {
    pub from: Point,
    pub to: Point,
}

/// The area call: "Give twice its signed area, .. zero when refused."
pub fn outline_area(words: &[u32]) -> (u32, i64) {
    match refusal(words, &[]) {
        ACCEPTED => (ACCEPTED, twice_area(words)),
        refusal => (refusal, 0),
    }
}

/// The point call: "For a point, answer on the outline, inside or outside."
/// A refusal goes with no place, which is zero.
pub fn outline_point(words: &[u32], x: u32, y: u32) -> (u32, u32) {
    match refusal(words, &[x, y]) {
        ACCEPTED => (ACCEPTED, place(words, Point { x, y })),
        refusal => (refusal, 0),
    }
}

/// "10, odd word count, or point count outside 3 to 64; 11, a coordinate of
/// the outline or of the point above 1,000,000; tested in that order"
fn refusal(words: &[u32], point: &[u32]) -> u32 {
    let is_odd = words.len() % 2 == 1;
    if is_odd || !(POINTS_FEWEST..=POINTS).contains(&(words.len() / 2)) {
        return POINT_COUNT;
    }
    let mut coordinates = words.iter().chain(point);
    if coordinates.any(|&coordinate| coordinate > EDGE) {
        return COORDINATE_TOO_LARGE;
    }
    ACCEPTED
}

/// The points of an outline, "as words x, y in turn".
pub fn points(words: &[u32]) -> Vec<Point> {
    let pairs = words.chunks_exact(2);
    pairs.map(|pair| Point::new(pair[0], pair[1])).collect()
}

/// The edges of an outline, "the last joined to the first".
pub fn edges(words: &[u32]) -> Vec<Edge> {
    let points = points(words);
    let next = points.iter().cycle().skip(1);
    let ends = points.iter().zip(next);
    ends.map(|(&from, &to)| Edge { from, to }).collect()
}

/// "twice its signed area, the sum of a times d less b times c over its edges
/// from (a, b) to (c, d): positive counter-clockwise"
fn twice_area(words: &[u32]) -> i64 {
    let term = |edge: Edge| {
        let (a, b) = (i64::from(edge.from.x), i64::from(edge.from.y));
        let (c, d) = (i64::from(edge.to.x), i64::from(edge.to.y));
        a * d - b * c
    };
    edges(words).into_iter().map(term).sum()
}

/// "A point on any edge is answered first." And "Inside means an odd number of
/// crossings with the ray to the east", also of an outline that crosses itself:
/// "Self-crossing outlines follow the same odd rule."
fn place(words: &[u32], point: Point) -> u32 {
    let edges = edges(words);
    if edges.iter().any(|&edge| is_on(point, edge)) {
        return ON;
    }
    let crossings = edges.iter().filter(|&&edge| counts(edge, point)).count();
    if crossings % 2 == 1 {
        INSIDE
    } else {
        OUTSIDE
    }
}

/// Whether a share of the way from one end of the edge to the other, 0 to 1,
/// leads to the point.
fn is_on(point: Point, edge: Edge) -> bool {
    let share = only_share(point, edge);
    let x = share.along(edge.from.x, edge.to.x);
    let y = share.along(edge.from.y, edge.to.y);
    (Fraction::ZERO..=Fraction::ONE).contains(&share)
        && x == Fraction::whole(point.x)
        && y == Fraction::whole(point.y)
}

/// The share of the way that alone can lead to the point: by its x, on an
/// upright edge by its y. On an edge of one point every share leads there.
fn only_share(point: Point, Edge { from, to }: Edge) -> Fraction {
    if from.x != to.x {
        return Fraction::share(from.x, to.x, point.x);
    }
    if from.y != to.y {
        return Fraction::share(from.y, to.y, point.y);
    }
    Fraction::ZERO
}

/// "An edge counts when its lower y is at most the point's y and its higher y
/// is above it, and it meets the ray."
fn counts(edge: Edge, point: Point) -> bool {
    let lower = edge.from.y.min(edge.to.y);
    let higher = edge.from.y.max(edge.to.y);
    lower <= point.y && higher > point.y && meets_ray(edge, point)
}

/// "the ray to the east": whether the edge, at the height of the point, is not
/// to the west of it. The edge is not level.
fn meets_ray(Edge { from, to }: Edge, point: Point) -> bool {
    let share = Fraction::share(from.y, to.y, point.y);
    share.along(from.x, to.x) >= Fraction::whole(point.x)
}

#[cfg(test)]
mod tests {
    use super::*;

    const SQUARE: [u32; 8] = [0, 0, 10, 0, 10, 10, 0, 10];

    #[test]
    fn the_order_of_refusals() {
        assert_eq!(outline_area(&[]), (10, 0));
        assert_eq!(outline_area(&SQUARE[..4]), (10, 0));
        assert_eq!(outline_area(&SQUARE[..7]), (10, 0));
        assert_eq!(outline_area(&[0; 128]), (0, 0));
        assert_eq!(outline_area(&[0; 129]), (10, 0));
        assert_eq!(outline_area(&[0; 130]), (10, 0));
        assert_eq!(outline_area(&[u32::MAX; 7]), (10, 0));
        assert_eq!(outline_area(&[u32::MAX; 8]), (11, 0));
        assert_eq!(outline_point(&SQUARE[..7], u32::MAX, 0), (10, 0));
    }

    #[test]
    fn coordinates_reach_1_000_000() {
        assert_eq!(outline_point(&SQUARE, EDGE, EDGE), (0, OUTSIDE));
        assert_eq!(outline_point(&SQUARE, EDGE + 1, 0), (11, 0));
        assert_eq!(outline_point(&SQUARE, 0, EDGE + 1), (11, 0));
        for place in 0..SQUARE.len() {
            let mut words = SQUARE;
            words[place] = EDGE;
            assert_eq!(outline_area(&words).0, 0);
            words[place] = EDGE + 1;
            assert_eq!(outline_area(&words), (11, 0));
            assert_eq!(outline_point(&words, 5, 5), (11, 0));
        }
    }

    #[test]
    fn the_last_point_is_joined_to_the_first() {
        let edges = edges(&SQUARE);
        assert_eq!(edges.len(), 4);
        assert_eq!(edges[3].from, Point::new(0, 10));
        assert_eq!(edges[3].to, Point::new(0, 0));
        assert_eq!(outline_point(&SQUARE, 0, 5), (0, ON));
    }
}
