//! The wrapper's own names and numbers.

use finder::relation::{one_of, Relation, ALL};
use finder::{admitted, check, empty, front, opened_pages, place, query, Rect, Refusal};
use finder::{nearest_piece, NearPiece, Nearest};
use finder::{outline_area, outline_point, Place, POINTS, POINTS_FEWEST};
use finder::{tile, tile_shares, Shares, TILES};
use finder::{turned_clause, turned_rect};
use finder::{EDGE, PAGES, PIECES, TABLE_WORDS};

const EQUAL: u64 = one_of(&[finder::relation::EQUAL]);
const SQUARE: [u32; 8] = [10, 10, 20, 10, 20, 20, 10, 20];

fn nine() -> Vec<u32> {
    let mut table = vec![0; TABLE_WORDS];
    empty(&mut table).unwrap();
    for c in 0..9 {
        place(&mut table, c, Rect::new(10 * c, 0, 10 * c + 5, 5)).unwrap();
    }
    table
}

#[test]
fn sizes_are_those_of_the_paper() {
    assert_eq!(TABLE_WORDS, model::TABLE_WORDS);
    assert_eq!(PAGES, model::PAGES);
    assert_eq!(PIECES, model::PIECES);
    assert_eq!(EDGE, model::sizes::EDGE);
    assert_eq!(finder::CLAUSES, model::sizes::CLAUSES);
    assert_eq!(POINTS_FEWEST, model::sizes::POINTS_FEWEST);
    assert_eq!(POINTS, model::sizes::POINTS);
    assert_eq!(TILES, model::sizes::TILES);
}

#[test]
fn refusals_have_their_numbers() {
    let numbers = [1, 2, 3, 4, 5, 6, 7, 8, 10, 11, 13, 14];
    assert_eq!(Refusal::ALL.map(Refusal::number), numbers);
    for refusal in Refusal::ALL {
        assert_eq!(Refusal::from_number(refusal.number()), Some(refusal));
        assert!(refusal.to_string().contains(&refusal.number().to_string()));
    }
}

#[test]
fn relations_have_their_numbers() {
    for (number, relation) in (0..40).zip(ALL) {
        assert_eq!(relation.number(), number);
        assert_eq!(Relation::from_number(number), Some(relation));
        assert_eq!(one_of(&[relation]), 1 << number);
    }
}

/// The names of corners: where the only configuration of a strong one lies.
#[test]
fn corners_lie_where_they_say() {
    use finder::relation::*;
    let corners = [
        (STRONG_CORNER_NORTH, Rect::new(300, 300, 310, 310)),
        (STRONG_CORNER_EAST, Rect::new(300, 10, 310, 20)),
        (STRONG_CORNER_SOUTH, Rect::new(10, 10, 20, 20)),
        (STRONG_CORNER_WEST, Rect::new(10, 300, 20, 310)),
    ];
    let mut table = vec![0; TABLE_WORDS];
    empty(&mut table).unwrap();
    for (number, (_, rect)) in (0..).zip(corners) {
        place(&mut table, number, rect).unwrap();
    }
    for (number, (corner, _)) in (0..).zip(corners) {
        let mut answer = [0; PIECES];
        let reference = Rect::new(100, 100, 200, 200);
        let listed = query(&table, reference, &[one_of(&[corner])], &mut answer).unwrap();
        assert_eq!(front(&answer, listed.hits as usize), [number]);
    }
}

#[test]
fn the_nine_pieces() {
    let table = nine();
    assert_eq!(table, model::tables::placed(&model::tables::nine_pieces()));
    assert_eq!(check(&table), Ok(9));
    let reference = Rect::new(80, 0, 85, 5);
    let mut answer = [77; 9];
    let listed = query(&table, reference, &[EQUAL], &mut answer).unwrap();
    assert_eq!((listed.hits, listed.opened), (1, 2));
    assert_eq!(answer, [8, 77, 77, 77, 77, 77, 77, 77, 77]);
    let mut pages = [77; 3];
    assert_eq!(opened_pages(&table, reference, &[EQUAL], &mut pages), Ok(2));
    pages[..2].sort_unstable();
    assert_eq!(pages, [1, 2, 77]);
}

/// Each refusal reaches its own name.
#[test]
fn each_refusal_by_name() {
    let mut table = nine();
    let (good, bad) = (Rect::new(0, 0, 1, 1), Rect::new(1, 0, 1, 1));
    let mut short = [0; 8];
    assert_eq!(check(&table[1..]), Err(Refusal::TableTooShort));
    assert_eq!(place(&mut table, 9, bad), Err(Refusal::RectangleNotValid));
    assert_eq!(place(&mut table, 1024, good), Err(Refusal::NumberTooLarge));
    assert_eq!(place(&mut table, 8, good), Err(Refusal::AlreadyStanding));
    assert_eq!(admitted(&[]), Err(Refusal::ClauseCount));
    assert_eq!(admitted(&[1 << 40]), Err(Refusal::ClauseNotValid));
    let asked = query(&table, good, &[EQUAL], &mut short);
    assert_eq!(asked, Err(Refusal::AnswerTooShort));
    table[2] = 10;
    assert_eq!(check(&table), Err(Refusal::TableNotSound));
    assert_eq!(outline_area(&SQUARE[1..]), Err(Refusal::PointCount));
    let far = outline_point(&SQUARE, EDGE + 1, 0);
    assert_eq!(far, Err(Refusal::CoordinateTooLarge));
    assert_eq!(tile_shares(bad, good), Err(Refusal::RectangleNotValid));
    assert_eq!(tile_shares(good, bad), Err(Refusal::RectangleNotValid));
    let far = nearest_piece(&nine(), 0, EDGE + 1, 1);
    assert_eq!(far, Err(Refusal::OutOfRange));
    empty(&mut table).unwrap();
    assert_eq!(nearest_piece(&table, 0, 0, 1), Err(Refusal::NoPieces));
}

#[test]
fn areas_and_places() {
    let clockwise = [10, 10, 10, 20, 20, 20, 20, 10];
    let largest = [0, 0, EDGE, 0, EDGE, EDGE, 0, EDGE];
    assert_eq!(outline_area(&SQUARE), Ok(200));
    assert_eq!(outline_area(&clockwise), Ok(-200));
    assert_eq!(outline_area(&largest), Ok(2_000_000_000_000));
    assert_eq!(outline_area(&[0; 2 * POINTS]), Ok(0));
    assert_eq!(outline_point(&SQUARE, 15, 15), Ok(Place::Inside));
    assert_eq!(outline_point(&SQUARE, 20, 15), Ok(Place::On));
    assert_eq!(outline_point(&SQUARE, 25, 15), Ok(Place::Outside));
}

/// The numbers of the places are those that the archive returns.
#[test]
fn places_have_their_numbers() {
    let asked = [(20, 15), (15, 15), (25, 15)];
    for ((x, y), number) in asked.into_iter().zip(1..) {
        let place = outline_point(&SQUARE, x, y).unwrap();
        assert_eq!(place as u32, number);
        assert_eq!(finder::raw::outline_point(&SQUARE, x, y).place, number);
    }
}

/// Columns 1, 2 and 4 wide, rows 1, 3 and 5 high: each number is at its place.
#[test]
fn shares_of_a_piece() {
    let (piece, reference) = (Rect::new(9, 9, 16, 18), Rect::new(10, 10, 12, 13));
    let expected = Shares {
        areas: [1, 2, 4, 3, 6, 12, 5, 10, 20],
        thousandths: [15, 31, 63, 47, 95, 190, 79, 158, 317],
        remainders: [55, 47, 31, 39, 15, 30, 23, 46, 29],
    };
    assert_eq!(tile_shares(piece, reference), Ok(expected));
    let raw = finder::raw::tile_shares(piece, reference);
    assert_eq!((raw.refusal, raw.areas), (0, expected.areas));
    assert_eq!(raw.thousandths, expected.thousandths);
    assert_eq!(raw.remainders, expected.remainders);
}

/// The names of tiles: a piece there has all of its area in it.
#[test]
fn tiles_lie_where_they_say() {
    let reference = Rect::new(100, 100, 200, 200);
    let tiles = [
        (tile::SOUTH_WEST, Rect::new(10, 10, 20, 20)),
        (tile::SOUTH, Rect::new(110, 10, 120, 20)),
        (tile::SOUTH_EAST, Rect::new(300, 10, 310, 20)),
        (tile::WEST, Rect::new(10, 110, 20, 120)),
        (tile::WITHIN, Rect::new(110, 110, 120, 120)),
        (tile::EAST, Rect::new(300, 110, 310, 120)),
        (tile::NORTH_WEST, Rect::new(10, 300, 20, 310)),
        (tile::NORTH, Rect::new(110, 300, 120, 310)),
        (tile::NORTH_EAST, Rect::new(300, 300, 310, 310)),
    ];
    for (place, (tile, piece)) in tiles.into_iter().enumerate() {
        assert_eq!(tile, place);
        let shares = tile_shares(piece, reference).unwrap();
        assert_eq!((shares.areas[tile], shares.thousandths[tile]), (100, 1000));
    }
}

/// A refusal reports zeros.
#[test]
fn refused_shares_are_zero() {
    let (good, bad) = (Rect::new(0, 0, EDGE, EDGE), Rect::new(0, 0, EDGE + 1, 1));
    for (piece, reference) in [(good, bad), (bad, good), (bad, bad)] {
        let shares = finder::raw::tile_shares(piece, reference);
        assert_eq!(shares.refusal, 2);
        let numbers = [shares.areas, shares.thousandths, shares.remainders];
        assert_eq!(numbers, [[0; TILES]; 3]);
    }
}

/// The unit square in the south west goes round by the north.
#[test]
fn turned_rectangles() {
    let last = EDGE - 1;
    let corners = [
        Rect::new(0, 0, 1, 1),
        Rect::new(0, last, 1, EDGE),
        Rect::new(last, last, EDGE, EDGE),
        Rect::new(last, 0, EDGE, 1),
    ];
    for turn in 0..4 {
        assert_eq!(turned_rect(corners[turn]), corners[(turn + 1) % 4]);
    }
    let turned = Rect::new(0, EDGE - 20, 7, EDGE - 5);
    assert_eq!(turned_rect(Rect::new(5, 0, 20, 7)), turned);
    let cloth = Rect::new(0, 0, EDGE, EDGE);
    assert_eq!(turned_rect(cloth), cloth);
}

/// What is not valid turns to zeros, and both are refused alike.
#[test]
fn turned_rectangles_that_are_not_valid() {
    let mut table = nine();
    let zeros = Rect::new(0, 0, 0, 0);
    let (flat, wide) = (Rect::new(0, 5, 10, 5), Rect::new(0, 0, EDGE + 1, 1));
    for rect in [flat, wide, zeros, Rect::new(u32::MAX, 0, 0, u32::MAX)] {
        assert_eq!(turned_rect(rect), zeros);
        assert_eq!(place(&mut table, 9, rect), Err(Refusal::RectangleNotValid));
        assert_eq!(place(&mut table, 9, zeros), Err(Refusal::RectangleNotValid));
    }
}

/// Each kind of north is the same kind of east, and so on round to north.
#[test]
fn turned_relations_by_name() {
    use finder::relation::*;
    let turned = |relation| turned_clause(one_of(&[relation]));
    let (topological, directed) = ALL.split_at(8);
    for &relation in topological {
        assert_eq!(turned(relation), one_of(&[relation]));
    }
    let next = directed.iter().cycle().skip(8);
    for (&relation, &next) in directed.iter().zip(next) {
        assert_eq!(turned(relation), one_of(&[next]));
    }
    assert_eq!(turned(NORTH), one_of(&[EAST]));
    assert_eq!(turned(WEST), one_of(&[NORTH]));
    assert_eq!(turned(STRONG_CORNER_SOUTH), one_of(&[STRONG_CORNER_WEST]));
}

/// All relations of a clause at once; bits that are none stay.
#[test]
fn turned_clauses() {
    use finder::relation::*;
    let wish = one_of(&[OVERLAP, JUST_NORTH, WEAK_WEST]);
    assert_eq!(
        turned_clause(wish),
        one_of(&[OVERLAP, JUST_EAST, WEAK_NORTH])
    );
    assert_eq!(turned_clause(wish | 1 << 40), turned_clause(wish) | 1 << 40);
    assert_eq!(turned_clause(1 << 63), 1 << 63);
    assert_eq!(turned_clause(0), 0);
    assert_eq!(turned_clause(u64::MAX), u64::MAX);
}

fn found(number: u32, distance: u64, opened: u32, left: Option<u64>) -> Nearest {
    let piece = Some(NearPiece { number, distance });
    Nearest {
        piece,
        opened,
        left,
    }
}

/// Pieces 0 to 3 are in one page, which ends at x = 35, and 4 to 8 in another,
/// which begins at x = 40.
#[test]
fn nearest_of_the_nine_pieces() {
    let table = nine();
    let asked = |x, y, allowance| nearest_piece(&table, x, y, allowance).unwrap();
    let root_alone = |left| Nearest {
        piece: None,
        opened: 1,
        left,
    };
    assert_eq!(asked(80, 0, 1), root_alone(Some(0)));
    assert_eq!(asked(37, 2, 1), root_alone(Some(4)));
    assert_eq!(asked(80, 0, 2), found(8, 0, 2, Some(2025)));
    assert_eq!(asked(37, 2, 341), found(3, 4, 2, Some(9)));
    assert_eq!(asked(38, 9, 341), found(4, 20, 2, Some(25)));
    let far = found(8, 999_830_007_225, 2, Some(999_930_001_225));
    assert_eq!(asked(EDGE, 5, PAGES as u32), far);
}

/// One page, so none is left; of two pieces as near the lower number.
#[test]
fn nearest_of_two_pieces() {
    let mut table = vec![0; TABLE_WORDS];
    empty(&mut table).unwrap();
    let asked = |table: &[u32], x, y| nearest_piece(table, x, y, 1).unwrap();
    place(&mut table, 1023, Rect::new(0, 0, 10, 10)).unwrap();
    assert_eq!(asked(&table, 15, 5), found(1023, 25, 1, None));
    place(&mut table, 7, Rect::new(20, 0, 30, 10)).unwrap();
    assert_eq!(asked(&table, 15, 5), found(7, 25, 1, None));
    assert_eq!(asked(&table, 14, 5), found(1023, 16, 1, None));
    let far = found(7, 1_999_920_001_000, 1, None);
    assert_eq!(asked(&table, EDGE, EDGE), far);
}

/// What belongs to an absent piece or page is 0, and all is where refused.
#[test]
fn raw_numbers_of_nearest_pieces() {
    let numbers = |table: &[u32], x, allowance| {
        let n = finder::raw::nearest_piece(table, x, 2, allowance);
        let small = [n.refusal, n.found, n.number, n.opened, n.left];
        (small, n.distance, n.left_distance)
    };
    let refused = |number| ([number, 0, 0, 0, 0], 0, 0);
    let mut table = nine();
    assert_eq!(numbers(&table, 37, 1), ([0, 0, 0, 1, 1], 0, 4));
    assert_eq!(numbers(&table, 37, 2), ([0, 1, 3, 2, 1], 4, 9));
    assert_eq!(numbers(&table, 37, 0), refused(13));
    assert_eq!(numbers(&table, 37, 342), refused(13));
    assert_eq!(numbers(&table, EDGE + 1, 341), refused(13));
    assert_eq!(numbers(&table[1..], 37, 1), refused(1));
    table[2] = 0;
    assert_eq!(numbers(&table, 37, 1), refused(6));
    empty(&mut table).unwrap();
    assert_eq!(numbers(&table, 37, 1), refused(14));
    place(&mut table, 5, Rect::new(0, 0, 35, 5)).unwrap();
    assert_eq!(numbers(&table, 37, 341), ([0, 1, 5, 1, 0], 4, 0));
}

/// Empty slices are lent by a pointer that is not null.
#[test]
fn slices_of_no_length() {
    assert_eq!(empty(&mut []), Err(Refusal::TableTooShort));
    let nothing = Rect::new(0, 0, 0, 0);
    assert_eq!(
        query(&[], nothing, &[], &mut []),
        Err(Refusal::TableTooShort)
    );
    let mut table = vec![0; TABLE_WORDS];
    empty(&mut table).unwrap();
    let listed = query(&table, Rect::new(0, 0, 1, 1), &[EQUAL], &mut []).unwrap();
    assert_eq!((listed.hits, listed.opened), (0, 1));
    assert_eq!(front(&[], 0), []);
    assert_eq!(outline_area(&[]), Err(Refusal::PointCount));
    assert_eq!(outline_point(&[], 0, 0), Err(Refusal::PointCount));
    assert_eq!(nearest_piece(&[], 0, 0, 1), Err(Refusal::TableTooShort));
}
