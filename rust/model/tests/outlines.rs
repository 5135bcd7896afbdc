//! Outlines whose area and inside are known by hand.

use model::outlines::{INSIDE, ON, OUTSIDE};
use model::{outline_area, outline_point};

const TOP: u32 = 1_000_000;

/// Twice the area of an accepted outline.
fn twice_area(words: &[u32]) -> i64 {
    let (refusal, twice_area) = outline_area(words);
    assert_eq!(refusal, 0);
    twice_area
}

/// Every one of these points is at the place.
fn all_at(place: u32, words: &[u32], points: &[(u32, u32)]) {
    for &(x, y) in points {
        assert_eq!(outline_point(words, x, y), (0, place), "({x}, {y})");
    }
}

#[test]
fn the_unit_square_both_ways_round() {
    let counter_clockwise = [0, 0, 1, 0, 1, 1, 0, 1];
    let clockwise = [0, 0, 0, 1, 1, 1, 1, 0];
    assert_eq!(twice_area(&counter_clockwise), 2);
    assert_eq!(twice_area(&clockwise), -2);
    for words in [counter_clockwise, clockwise] {
        all_at(ON, &words, &[(0, 0), (1, 0), (1, 1), (0, 1)]);
        all_at(OUTSIDE, &words, &[(2, 0), (2, 1), (0, 2), (1, 2), (2, 2)]);
    }
}

/// Sides 4, 3 and 5: half of 4 times 3. Inside is 3 x + 4 y < 12.
#[test]
fn a_right_triangle() {
    let words = [0, 0, 4, 0, 0, 3];
    assert_eq!(twice_area(&words), 12);
    all_at(ON, &words, &[(4, 0), (0, 3), (0, 0), (2, 0), (0, 1)]);
    all_at(INSIDE, &words, &[(1, 1), (2, 1), (1, 2)]);
    all_at(OUTSIDE, &words, &[(3, 1), (2, 2), (5, 0), (0, 4), (4, 3)]);
}

/// 4 times 2 and 2 times 2.
#[test]
fn an_l() {
    let words = [0, 0, 4, 0, 4, 2, 2, 2, 2, 4, 0, 4];
    assert_eq!(twice_area(&words), 24);
    all_at(ON, &words, &[(2, 2), (3, 2), (2, 3), (4, 1), (1, 4)]);
    all_at(INSIDE, &words, &[(1, 1), (3, 1), (1, 3), (1, 2)]);
    all_at(OUTSIDE, &words, &[(3, 3), (4, 3), (3, 4), (5, 2), (5, 0)]);
}

/// Level sides 10 and 6, height 4.
#[test]
fn a_trapezium() {
    let words = [0, 0, 10, 0, 8, 4, 2, 4];
    assert_eq!(twice_area(&words), 64);
    all_at(ON, &words, &[(1, 2), (9, 2), (5, 0), (2, 4), (7, 4)]);
    all_at(INSIDE, &words, &[(1, 1), (2, 3), (8, 3), (9, 1)]);
    all_at(OUTSIDE, &words, &[(0, 1), (0, 2), (1, 3), (10, 1), (1, 4)]);
}

/// "Self-crossing outlines follow the same odd rule": the tips are inside, the
/// middle is not.
#[test]
fn a_pentagram() {
    let words = [50, 100, 79, 10, 3, 65, 97, 65, 21, 10];
    let terms = [-7400, 5105, -6110, -395, 1600];
    assert_eq!(twice_area(&words), terms.iter().sum::<i64>());
    all_at(INSIDE, &words, &[(50, 80), (90, 62), (10, 62)]);
    all_at(INSIDE, &words, &[(75, 18), (25, 18)]);
    all_at(OUTSIDE, &words, &[(50, 50), (45, 55), (55, 45), (50, 64)]);
    all_at(OUTSIDE, &words, &[(50, 10), (20, 90), (80, 90), (0, 65)]);
    all_at(ON, &words, &[(50, 65), (79, 10), (4, 65), (96, 65)]);
}

/// Run round twice, a square has twice the area and no inside.
#[test]
fn a_square_run_round_twice() {
    let once = [1, 1, 9, 1, 9, 9, 1, 9];
    let twice = [once, once].concat();
    assert_eq!(twice_area(&once), 128);
    assert_eq!(twice_area(&twice), 256);
    all_at(INSIDE, &once, &[(5, 5)]);
    all_at(OUTSIDE, &twice, &[(5, 5), (0, 5), (10, 5)]);
    all_at(ON, &twice, &[(1, 5), (9, 9)]);
}

/// Two equal triangles that run round in opposite ways.
#[test]
fn a_bow_tie() {
    let words = [0, 0, 4, 4, 4, 0, 0, 4];
    assert_eq!(twice_area(&words), 0);
    all_at(INSIDE, &words, &[(1, 2), (3, 2)]);
    all_at(OUTSIDE, &words, &[(2, 1), (2, 3), (2, 0), (5, 2)]);
    all_at(ON, &words, &[(2, 2), (1, 1), (3, 1), (0, 2), (4, 2)]);
}

/// A spine of 14 times 2 with four teeth of 2 times 8.
#[test]
fn a_comb() {
    let words = [
        0, 0, 14, 0, 14, 10, 12, 10, 12, 2, 10, 2, 10, 10, 8, 10, 8, 2, 6, 2, 6, 10, 4, 10, 4, 2,
        2, 2, 2, 10, 0, 10,
    ];
    assert_eq!(twice_area(&words), 2 * (14 * 2 + 4 * 2 * 8));
    for tooth in [1, 5, 9, 13] {
        all_at(INSIDE, &words, &[(tooth, 1), (tooth, 2), (tooth, 9)]);
        all_at(ON, &words, &[(tooth, 0), (tooth, 10), (tooth + 1, 5)]);
    }
    for gap in [3, 7, 11] {
        all_at(INSIDE, &words, &[(gap, 1)]);
        all_at(ON, &words, &[(gap, 2), (gap, 0)]);
        all_at(OUTSIDE, &words, &[(gap, 3), (gap, 9), (gap, 10)]);
    }
    all_at(OUTSIDE, &words, &[(15, 0), (15, 2), (15, 5), (15, 10)]);
}

#[test]
fn the_largest_square() {
    let words = [0, 0, TOP, 0, TOP, TOP, 0, TOP];
    let reversed = [0, TOP, TOP, TOP, TOP, 0, 0, 0];
    assert_eq!(twice_area(&words), 2_000_000_000_000);
    assert_eq!(twice_area(&reversed), -2_000_000_000_000);
    for words in [words, reversed] {
        let half = TOP / 2;
        all_at(INSIDE, &words, &[(half, half), (1, 1), (TOP - 1, TOP - 1)]);
        all_at(
            ON,
            &words,
            &[(0, half), (half, 0), (TOP, half), (half, TOP)],
        );
    }
}

/// The point next to a long edge is not on it.
#[test]
fn beside_the_longest_edge() {
    let words = [0, 0, TOP, TOP - 1, 0, TOP];
    all_at(ON, &words, &[(0, 0), (TOP, TOP - 1)]);
    all_at(INSIDE, &words, &[(1, 1), (TOP - 1, TOP - 1), (500, 500)]);
    all_at(
        OUTSIDE,
        &words,
        &[(1, 0), (2, 1), (TOP, TOP), (TOP - 1, TOP - 2)],
    );
}

/// A saw: the highest point over an even x is 10 up, over an odd x 4. So there
/// are 61 strips of 7 and one, in the west, of 2.
#[test]
fn a_saw_of_64_points() {
    let mut words = vec![0, 0, 62, 0];
    for x in (1..=62).rev() {
        words.extend([x, if x % 2 == 0 { 10 } else { 4 }]);
    }
    assert_eq!(words.len(), 128);
    assert_eq!(twice_area(&words), 2 * (61 * 7 + 2));
    all_at(INSIDE, &words, &[(31, 3), (30, 9), (30, 4), (30, 1)]);
    all_at(ON, &words, &[(31, 4), (30, 10), (31, 0), (62, 5)]);
    all_at(OUTSIDE, &words, &[(31, 5), (30, 11), (31, 10), (63, 4)]);
    all_at(OUTSIDE, &words, &[(0, 4), (0, 10), (63, 0)]);
}

#[test]
fn an_outline_on_one_line() {
    let words = [0, 0, 6, 3, 2, 1, 4, 2];
    assert_eq!(twice_area(&words), 0);
    all_at(ON, &words, &[(0, 0), (2, 1), (4, 2), (6, 3)]);
    all_at(OUTSIDE, &words, &[(8, 4), (1, 1), (3, 1), (3, 2), (5, 2)]);
    let level = [3, 5, 9, 5, 6, 5];
    all_at(ON, &level, &[(3, 5), (5, 5), (9, 5)]);
    all_at(OUTSIDE, &level, &[(2, 5), (10, 5), (6, 4), (6, 6)]);
    let upright = [5, 3, 5, 9, 5, 6];
    all_at(ON, &upright, &[(5, 3), (5, 5), (5, 9)]);
    all_at(OUTSIDE, &upright, &[(5, 2), (5, 10), (4, 6), (6, 6)]);
}

#[test]
fn repeated_points() {
    let single = [5, 5, 5, 5, 5, 5];
    assert_eq!(twice_area(&single), 0);
    all_at(ON, &single, &[(5, 5)]);
    all_at(OUTSIDE, &single, &[(4, 5), (6, 5), (5, 4), (5, 6), (0, 0)]);

    let square = [1, 1, 1, 1, 9, 1, 9, 1, 9, 9, 9, 9, 1, 9, 1, 9];
    assert_eq!(twice_area(&square), 128);
    all_at(INSIDE, &square, &[(5, 5), (2, 2)]);
    all_at(ON, &square, &[(1, 1), (9, 5), (5, 9)]);
    all_at(OUTSIDE, &square, &[(0, 1), (0, 9), (10, 1), (10, 9)]);
}
