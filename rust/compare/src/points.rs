//! Points to ask for by an outline: where a rule could slip.

use model::outlines::{edges, points, Edge, Point};
use model::random::Random;
use model::sizes::EDGE;

/// Points of every kind by this outline of at least one point: its corners,
/// points on its edges, those one unit beside either, those at the height of a
/// corner, and points anywhere. At most `most` of each kind, twice as many
/// beside.
pub fn by_outline(words: &[u32], most: usize, random: &mut Random) -> Vec<Point> {
    let mut on = some(points(words), most, random);
    on.extend(some(on_edges(words, random), most, random));
    let beside = on.iter().flat_map(|&point| neighbours(point)).collect();
    let mut all = on;
    all.extend(some(beside, 2 * most, random));
    all.extend((0..most).map(|_| level_with_a_corner(words, random)));
    all.extend((0..most).map(|_| within_or_anywhere(words, random)));
    all
}

/// So many of the points, by chance.
fn some(mut points: Vec<Point>, most: usize, random: &mut Random) -> Vec<Point> {
    random.shuffle(&mut points);
    points.truncate(most);
    points
}

/// A point of whole units between the ends of each edge, where there is one;
/// the one in the middle too.
fn on_edges(words: &[u32], random: &mut Random) -> Vec<Point> {
    let mut found = Vec::new();
    for edge in edges(words) {
        let parts = whole_parts(edge);
        if parts >= 2 {
            found.push(at_part(edge, random.between(1, parts - 1), parts));
        }
        if parts >= 2 && parts.is_multiple_of(2) {
            found.push(at_part(edge, parts / 2, parts));
        }
    }
    found
}

/// Into how many equal parts the edge can be cut at points of whole units.
fn whole_parts(Edge { from, to }: Edge) -> u32 {
    let (mut a, mut b) = (from.x.abs_diff(to.x), from.y.abs_diff(to.y));
    while b > 0 {
        (a, b) = (b, a % b);
    }
    a
}

/// The end of the edge's part of this number.
fn at_part(Edge { from, to }: Edge, part: u32, parts: u32) -> Point {
    let along = |from: u32, to: u32| {
        let step = from.abs_diff(to) / parts * part;
        if from < to {
            from + step
        } else {
            from - step
        }
    };
    Point::new(along(from.x, to.x), along(from.y, to.y))
}

/// The points one unit to the west, east, south and north, on the cloth.
fn neighbours(point: Point) -> [Point; 4] {
    let Point { x, y } = point;
    [
        Point::new(x.saturating_sub(1), y),
        Point::new(EDGE.min(x + 1), y),
        Point::new(x, y.saturating_sub(1)),
        Point::new(x, EDGE.min(y + 1)),
    ]
}

/// At the height of a corner: far in the west or east, under or over another
/// corner, or anywhere.
fn level_with_a_corner(words: &[u32], random: &mut Random) -> Point {
    let corners = points(words);
    let (corner, other) = (*random.pick(&corners), *random.pick(&corners));
    let x = match random.below(6) {
        0 => 0,
        1 => EDGE,
        2 => other.x,
        3 => corner.x / 2 + other.x / 2,
        4 => within_or_anywhere(words, random).x,
        _ => random.between(0, EDGE),
    };
    Point::new(x, corner.y)
}

/// Most often between two corners.
fn within_or_anywhere(words: &[u32], random: &mut Random) -> Point {
    let corners = points(words);
    let (one, other) = (*random.pick(&corners), *random.pick(&corners));
    if random.one_in(6) {
        return Point::new(random.between(0, EDGE), random.between(0, EDGE));
    }
    let x = random.between(one.x.min(other.x), one.x.max(other.x));
    let y = random.between(one.y.min(other.y), one.y.max(other.y));
    Point::new(x, y)
}

#[cfg(test)]
mod tests {
    use super::*;
    use model::outlines::ON;
    use model::shapes::Shape;

    #[test]
    fn corners_and_points_on_edges_are_on_the_outline() {
        let random = &mut Random::new(1);
        for shape in Shape::ALL {
            for count in [3, 8, 64] {
                let words = shape.outline(count, 1000, random);
                let mut on = points(&words);
                on.extend(on_edges(&words, random));
                for Point { x, y } in on {
                    assert_eq!(model::outline_point(&words, x, y), (0, ON));
                }
            }
        }
    }

    #[test]
    fn points_by_an_outline_are_accepted() {
        let random = &mut Random::new(2);
        for shape in Shape::ALL {
            let words = shape.outline(20, EDGE, random);
            let found = by_outline(&words, 10, random);
            assert!(found.len() > 30);
            assert!(found.iter().all(|point| point.x <= EDGE && point.y <= EDGE));
        }
    }
}
