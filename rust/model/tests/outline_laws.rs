//! Laws of outlines, by brute force.

use model::outlines::{points, Point, INSIDE, ON, OUTSIDE};
use model::random::Random;
use model::shapes::{anywhere, words, Shape};
use model::{outline_area, outline_point};

const TOP: u32 = 1_000_000;

fn twice_area(outline: &[u32]) -> i64 {
    let (refusal, twice_area) = outline_area(outline);
    assert_eq!(refusal, 0);
    twice_area
}

fn place(outline: &[u32], point: Point) -> u32 {
    let (refusal, place) = outline_point(outline, point.x, point.y);
    assert_eq!(refusal, 0);
    place
}

/// The outline with every point changed.
fn mapped(outline: &[u32], change: impl Fn(Point) -> Point) -> Vec<u32> {
    let changed: Vec<Point> = points(outline).into_iter().map(change).collect();
    words(&changed)
}

fn reversed(outline: &[u32]) -> Vec<u32> {
    let mut points = points(outline);
    points.reverse();
    words(&points)
}

/// A corner, a point at the height of a corner, or any.
fn some_point(outline: &[u32], size: u32, random: &mut Random) -> Point {
    let any = anywhere(1, size, random)[0];
    let corner = *random.pick(&points(outline));
    match random.below(4) {
        0 => corner,
        1 => Point::new(any.x, corner.y),
        2 => Point::new(corner.x, any.y),
        _ => any,
    }
}

/// Small and large outlines of every kind, with a few points each.
fn for_many(seed: u64, mut law: impl FnMut(&[u32], Point)) {
    let random = &mut Random::new(seed);
    for shape in Shape::ALL {
        for size in [20, 70, 1000, TOP] {
            for _ in 0..40 {
                let count = random.between(3, 64.min(size - 1)) as usize;
                let outline = shape.outline(count, size, random);
                for _ in 0..8 {
                    law(&outline, some_point(&outline, size, random));
                }
            }
        }
    }
}

/// Pick's theorem on an outline that does not cross itself: twice the area is
/// twice the points inside, and the points on the outline, less 2.
#[test]
fn the_points_inside_and_on_give_the_area() {
    let random = &mut Random::new(51);
    for shape in Shape::SIMPLE {
        for _ in 0..150 {
            let count = random.between(3, 18) as usize;
            let size = random.between(19, 36);
            let outline = shape.outline(count, size, random);
            let turned = mapped(&outline, |p| Point::new(p.y, p.x));
            let by_points = twice_area_by_points(&outline, size);
            assert_eq!(twice_area(&outline), by_points, "{shape:?} {outline:?}");
            assert_eq!(twice_area_by_points(&turned, size), by_points);
        }
    }
}

fn twice_area_by_points(outline: &[u32], size: u32) -> i64 {
    let (mut inside, mut on) = (0, 0);
    for y in 0..=size {
        for x in 0..=size {
            match place(outline, Point::new(x, y)) {
                INSIDE => inside += 1,
                ON => on += 1,
                _ => {}
            }
        }
    }
    2 * inside + on - 2
}

/// "The area sum may begin at any point of the outline and gives the same
/// total", and so does the place.
#[test]
fn an_outline_may_begin_at_any_point() {
    for_many(52, |outline, point| {
        let (area, place_there) = (twice_area(outline), place(outline, point));
        let mut begun = outline.to_vec();
        for _ in 0..outline.len() / 2 {
            begun.rotate_left(2);
            assert_eq!(twice_area(&begun), area);
            assert_eq!(place(&begun, point), place_there);
        }
    });
}

/// "and the reversed outline gives its negative"
#[test]
fn the_reversed_outline_has_the_negative() {
    for_many(53, |outline, point| {
        let back = reversed(outline);
        assert_eq!(twice_area(&back), -twice_area(outline));
        assert_eq!(place(&back, point), place(outline, point));
    });
}

/// A ray to the west, to the north or to the south would do as well.
#[test]
fn the_ray_may_run_in_any_direction() {
    let west = |p: Point| Point::new(TOP - p.x, p.y);
    let across = |p: Point| Point::new(p.y, p.x);
    let across_back = |p: Point| Point::new(TOP - p.y, p.x);
    for_many(54, |outline, point| {
        let (area, place_there) = (twice_area(outline), place(outline, point));
        assert_eq!(twice_area(&mapped(outline, west)), -area);
        assert_eq!(twice_area(&mapped(outline, across)), -area);
        assert_eq!(twice_area(&mapped(outline, across_back)), area);
        assert_eq!(place(&mapped(outline, west), west(point)), place_there);
        assert_eq!(place(&mapped(outline, across), across(point)), place_there);
        let turned = mapped(outline, across_back);
        assert_eq!(place(&turned, across_back(point)), place_there);
    });
}

/// Which side of the way from a to b the point is on: 1, -1, or 0 for neither.
fn side(a: Point, b: Point, point: Point) -> i64 {
    let less = |one: u32, other: u32| i64::from(one) - i64::from(other);
    let turn = less(b.x, a.x) * less(point.y, a.y) - less(b.y, a.y) * less(point.x, a.x);
    turn.signum()
}

/// An outline is cut into triangles from its first point: where none of their
/// sides leads through the point, it is inside the outline exactly when it is
/// inside an odd number of them.
#[test]
fn inside_is_inside_an_odd_number_of_triangles() {
    let mut compared = [0; 4];
    for_many(55, |outline, point| {
        let points = points(outline);
        let first = points[0];
        let mut held = 0;
        for two in points.windows(2) {
            let triangle = [(first, two[0]), (two[0], two[1]), (two[1], first)];
            let sides = triangle.map(|(a, b)| side(a, b, point));
            match sides {
                _ if sides.contains(&0) && !is_flat(first, two) => return,
                _ if sides == [1; 3] || sides == [-1; 3] => held += 1,
                _ => {}
            }
        }
        let place_there = place(outline, point);
        if place_there != ON {
            assert_eq!(
                place_there == INSIDE,
                held % 2 == 1,
                "{outline:?} {point:?}"
            );
        }
        compared[place_there as usize] += 1;
    });
    assert!(compared[INSIDE as usize] > 500 && compared[OUTSIDE as usize] > 500);
}

/// A triangle on one line holds no point.
fn is_flat(first: Point, two: &[Point]) -> bool {
    side(first, two[0], two[1]) == 0
}

#[test]
fn nothing_is_inside_an_outline_on_one_line() {
    let random = &mut Random::new(56);
    for shape in Shape::FLAT {
        for _ in 0..30 {
            let outline = shape.outline(random.between(3, 9) as usize, 20, random);
            assert_eq!(twice_area(&outline), 0);
            for y in 0..=20 {
                let row = (0..=20).map(|x| Point::new(x, y));
                assert!(row.into_iter().all(|p| place(&outline, p) != INSIDE));
            }
            let corners = points(&outline);
            assert!(corners.iter().all(|&corner| place(&outline, corner) == ON));
        }
    }
}
