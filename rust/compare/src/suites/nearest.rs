//! The nearest piece on a page allowance.

use super::lengths::{self, LENGTHS};
use crate::cases::edge_cases;
use crate::{Compared, Outcome};
use model::damage;
use model::nearest::Nearest;
use model::pages::{page_bounds, page_count, piece_count};
use model::random::Random;
use model::sizes::EDGE;
use model::tables::{self, build, nine_pieces, pieces_in, placed};
use model::tables::{Draft, Family, Fill, Order, Piece};
use model::{Rect, PAGES};

pub const SEED: u64 = 116;

const ALL: u32 = PAGES as u32;

/// "an allowance of 1 to 341 pages"
const ALLOWED: [u32; 5] = [1, 2, 3, ALL - 1, ALL];

/// Cut to 8 or 16 bits, some of these would be allowed.
const NOT_ALLOWED: [u32; 8] = [
    0,
    ALL + 1,
    513,
    1 << 16,
    (1 << 16) + 1,
    (1 << 24) + 1,
    1 << 31,
    u32::MAX,
];

pub fn nearest(compared: &mut Compared) -> Outcome {
    refusals(compared)?;
    any_lengths(compared)?;
    damaged(compared)?;
    nine(compared)?;
    one_piece(compared)?;
    small_cloths(compared)?;
    sides(compared)?;
    rings(compared)?;
    all_pages(compared)?;
    every_allowance(compared)?;
    samples(compared)?;
    placed_tables(compared)?;
    built_tables(compared)
}

fn refused(refusal: u32) -> Nearest {
    (refusal, None, 0, None)
}

/// Every refusal alone and with each other: "Order is 1, 6, 13, 14." And what
/// is accepted at the very edge.
fn refusals(compared: &mut Compared) -> Outcome {
    let coordinates = [0, 1, EDGE, EDGE + 1, 1 << 31, u32::MAX];
    for (name, of_table, table) in tables_and_refusals() {
        compared.case(format!("{name}, seed {SEED}"));
        for x in coordinates {
            for y in coordinates {
                for allowance in ALLOWED.into_iter().chain(NOT_ALLOWED) {
                    let in_range = x <= EDGE && y <= EDGE && ALLOWED.contains(&allowance);
                    let expected = match of_table {
                        0 | 14 if !in_range => 13,
                        of_table => of_table,
                    };
                    let answer = compared.nearest_piece(&table, x, y, allowance)?;
                    assert_eq!(answer.0, expected);
                    assert!(expected == 0 || answer == refused(expected));
                }
            }
        }
    }
    Ok(())
}

/// Tables, each with the refusal that it calls for by itself.
fn tables_and_refusals() -> Vec<(&'static str, u32, Vec<u32>)> {
    let random = &mut Random::new(SEED);
    let nine = placed(&nine_pieces());
    let changed = |word: usize, value: u32| {
        let mut table = nine.clone();
        table[word] = value;
        table
    };
    let short = |mut table: Vec<u32>| {
        table.pop();
        table
    };
    let one = [(1023, Rect::new(EDGE - 1, 3, EDGE, EDGE))];
    let full = Family::Spread.pieces(1024, random);
    vec![
        ("no words", 1, vec![]),
        ("short", 1, short(nine.clone())),
        ("short and not sound", 1, short(changed(2, 10))),
        ("short and without pieces", 1, short(placed(&[]))),
        (
            "short and full",
            1,
            short(build(&full, Fill::Least, Order::Shuffled, random)),
        ),
        ("a piece too many counted", 6, changed(2, 10)),
        ("not sound, no piece counted", 6, changed(2, 0)),
        ("no pages", 6, changed(0, 0)),
        ("zeros", 6, vec![0; nine.len()]),
        ("without pieces", 14, placed(&[])),
        ("one piece", 0, placed(&one)),
        ("nine pieces", 0, nine),
        (
            "full",
            0,
            build(&full, Fill::Least, Order::Shuffled, random),
        ),
    ]
}

/// Table slices of every awkward length, with sound and other words in them.
fn any_lengths(compared: &mut Compared) -> Outcome {
    let random = &mut Random::new(SEED);
    for (name, words) in lengths::contents(random) {
        for length in LENGTHS {
            compared.case(format!("{length} words of {name}, seed {SEED}"));
            for (x, y, allowance) in [(3, 4, ALL), (EDGE, 700_000, 5), (3, EDGE + 1, 5), (3, 4, 0)]
            {
                compared.nearest_piece(&words[..length], x, y, allowance)?;
            }
        }
    }
    Ok(())
}

/// A damaged table is refused with 6, whatever else is wrong.
fn damaged(compared: &mut Compared) -> Outcome {
    for damaged in damage::damaged() {
        compared.case(damaged.name());
        for (x, y, allowance) in [(3, 4, ALL), (EDGE + 1, 4, ALL), (3, u32::MAX, 1), (3, 4, 0)] {
            let answer = compared.nearest_piece(&damaged.words, x, y, allowance)?;
            assert_eq!(answer, refused(6));
        }
    }
    Ok(())
}

/// What the answers were seen to have.
#[derive(Default)]
struct Met {
    answers: u32,
    no_piece: u32,
    none_left: u32,
    on_a_piece: u32,
    /// The page that is left is as near as the piece.
    left_as_near: u32,
    /// A page that is left is nearer than the piece: the allowance was spent.
    left_nearer: u32,
}

impl Met {
    fn note(&mut self, (refusal, piece, _, left): Nearest) {
        assert_eq!(refusal, 0);
        self.answers += 1;
        let (distance, some_left) = (piece.map(|piece| piece.1), left.is_some());
        self.no_piece += u32::from(piece.is_none());
        self.none_left += u32::from(!some_left);
        self.on_a_piece += u32::from(distance == Some(0));
        self.left_as_near += u32::from(some_left && left == distance);
        self.left_nearer += u32::from(piece.is_some() && some_left && left < distance);
    }

    /// Each kind of answer was met so often, in parts per thousand.
    fn assert_each(&self, least: u32) {
        let kinds = [
            self.no_piece,
            self.none_left,
            self.on_a_piece,
            self.left_as_near,
            self.left_nearer,
        ];
        let enough = |met: &u32| 1000 * met >= least * self.answers;
        assert!(kinds.iter().all(enough), "{kinds:?} of {}", self.answers);
    }
}

/// Every point along the nine pieces, below and above them.
fn nine(compared: &mut Compared) -> Outcome {
    compared.case("nine pieces");
    let table = placed(&nine_pieces());
    let mut met = Met::default();
    for x in 0..=90 {
        for y in [0, 3, 5, 6, 40] {
            for allowance in [1, 2, 3, 4, ALL] {
                met.note(compared.nearest_piece(&table, x, y, allowance)?);
            }
        }
    }
    assert!(met.no_piece > 0 && met.on_a_piece > 0);
    Ok(())
}

/// The coordinates at which something changes by the interval from `low` to
/// `high`.
fn along(low: u32, high: u32) -> [u32; 8] {
    let (before, after) = (low.saturating_sub(1), EDGE.min(high + 1));
    let middle = (low + high) / 2;
    [0, before, low, low + 1, middle, high, after, EDGE]
}

/// Every point by a piece that stands alone: inside it, on its edges and
/// corners, one unit beyond, at the corners of the cloth.
fn one_piece(compared: &mut Compared) -> Outcome {
    let mut rects: Vec<Rect> = edge_cases()
        .into_iter()
        .filter(|rect| rect.is_valid())
        .collect();
    rects.extend([
        Rect::new(500_000, 499_000, 500_001, 501_000),
        Rect::new(10, 20, 40, 60),
        Rect::new(0, 999_000, 70_000, EDGE),
    ]);
    for rect in rects {
        for number in [0, 500, 1023] {
            compared.case(format!("piece {number} alone, {rect:?}"));
            let table = placed(&[(number, rect)]);
            for x in along(rect.x1, rect.x2) {
                for y in along(rect.y1, rect.y2) {
                    for allowance in [1, ALL] {
                        let answer = compared.nearest_piece(&table, x, y, allowance)?;
                        assert!(matches!(answer, (0, Some(_), 1, None)));
                    }
                }
            }
        }
    }
    Ok(())
}

const FILLS: [Fill; 3] = [Fill::Least, Fill::Most, Fill::Mixed];
const ORDERS: [Order; 3] = [Order::LeavesFirst, Order::RootFirst, Order::Shuffled];

/// A cloth of 8 units, all its points and some beyond: nearly all distances are
/// met more than once.
fn small_cloths(compared: &mut Compared) -> Outcome {
    let random = &mut Random::new(SEED);
    let mut met = Met::default();
    for count in [1, 5, 8, 12, 33, 100] {
        for fill in FILLS {
            let order = *random.pick(&ORDERS);
            compared.case(format!("{count} of Tiny, {fill:?}, {order:?}, seed {SEED}"));
            let pieces = Family::Tiny.pieces(count, random);
            let table = build(&pieces, fill, order, random);
            for x in 0..=9 {
                for y in 0..=9 {
                    for allowance in [1, 2, 3, ALL] {
                        met.note(compared.nearest_piece(&table, x, y, allowance)?);
                    }
                }
            }
        }
    }
    met.assert_each(1);
    Ok(())
}

/// Pages of four pieces, in the order of the list, with any page numbers.
fn leaves_of_four(pieces: &[Piece], random: &mut Random) -> Vec<u32> {
    let table = build(pieces, Fill::Least, Order::LeavesFirst, random);
    let mut draft = Draft::of(&table);
    let mut numbers: Vec<u32> = (0..page_count(&table)).collect();
    random.shuffle(&mut numbers);
    draft.renumber(&numbers);
    draft.words()
}

/// So many piece numbers, in any order.
fn numbers(count: usize, random: &mut Random) -> Vec<u32> {
    let mut numbers: Vec<u32> = (0..1024).collect();
    random.shuffle(&mut numbers);
    numbers.truncate(count);
    numbers
}

/// Leaves on all four sides of a point, as near as each other, and each with a
/// piece as near: only the lower page number decides, and then the lower piece
/// number among those of the opened leaf.
fn sides(compared: &mut Compared) -> Outcome {
    let random = &mut Random::new(SEED);
    let mut met = Met::default();
    for round in 0..150 {
        compared.case(format!("four sides of a point, seed {SEED}, round {round}"));
        let (x, y) = (500 + random.below(900_000), 500 + random.below(900_000));
        let away = random.between(1, 100);
        let mut rects = Vec::new();
        for side in 0..4 {
            for place in 0..4 {
                // The first two of each side are as near; two stand behind them.
                let near = away + if place < 2 { 0 } else { 30 * place };
                let (low, high) = (near, near + 20);
                let (start, end) = if place % 2 == 0 { (0, 9) } else { (9, 0) };
                rects.push(match side {
                    0 => Rect::new(x - start - 1, y + low, x + end + 1, y + high),
                    1 => Rect::new(x + low, y - start - 1, x + high, y + end + 1),
                    2 => Rect::new(x - start - 1, y - high, x + end + 1, y - low),
                    _ => Rect::new(x - high, y - start - 1, x - low, y + end + 1),
                });
            }
        }
        let pieces: Vec<Piece> = numbers(16, random).into_iter().zip(rects).collect();
        let table = leaves_of_four(&pieces, random);
        for allowance in [1, 2, 3, 4, 5, ALL] {
            for (x, y) in [(x, y), (x + 1, y), (x, y - 1)] {
                met.note(compared.nearest_piece(&table, x, y, allowance)?);
            }
        }
        let far = u64::from(away) * u64::from(away);
        let (_, piece, opened, left) = compared.nearest_piece(&table, x, y, ALL)?;
        assert_eq!((piece.unwrap().1, opened, left), (far, 2, Some(far)));
    }
    assert!(met.no_piece > 0 && met.left_as_near > 0);
    Ok(())
}

/// Leaves that all hold a point, with their four pieces round it, so many units
/// away: every page is opened, as far as the allowance goes.
fn ring(x: u32, y: u32, away: &[u32], random: &mut Random) -> Vec<Piece> {
    let mut rects = Vec::new();
    for &near in away {
        let far = near + 1 + random.below(5);
        rects.extend([
            Rect::new(x, y + near, x + 1, y + far),
            Rect::new(x + near, y - 1, x + far, y),
            Rect::new(x - 1, y - far, x, y - near),
            Rect::new(x - far, y, x - near, y + 1),
        ]);
    }
    let numbers = numbers(rects.len(), random);
    numbers.into_iter().zip(rects).collect()
}

/// Rings whose pieces are all as near, and rings of different ones: the best
/// piece may stand in any of the opened leaves.
fn rings(compared: &mut Compared) -> Outcome {
    let random = &mut Random::new(SEED);
    let mut met = Met::default();
    for round in 0..60 {
        let leaves = random.between(2, 30);
        let spread = *random.pick(&[1, 2, 3, 1_000, 300_000]);
        compared.case(format!(
            "{leaves} leaves round a point, spread {spread}, seed {SEED}, round {round}"
        ));
        let away: Vec<u32> = (0..leaves).map(|_| 1 + random.below(spread)).collect();
        let pieces = ring(400_000, 500_000, &away, random);
        let table = leaves_of_four(&pieces, random);
        let k = page_count(&table);
        for allowance in (1..=k + 1).chain([ALL]) {
            met.note(compared.nearest_piece(&table, 400_000, 500_000, allowance)?);
        }
        let (_, piece, opened, left) = compared.nearest_piece(&table, 400_000, 500_000, k)?;
        let least = u64::from(*away.iter().min().unwrap());
        assert_eq!((piece.unwrap().1, opened, left), (least * least, k, None));
    }
    assert!(met.no_piece > 0 && met.none_left > 0 && met.left_nearer > 0);
    Ok(())
}

/// A ring of 1,024 pieces: 341 pages, all opened.
fn all_pages(compared: &mut Compared) -> Outcome {
    let random = &mut Random::new(SEED);
    for order in ORDERS {
        compared.case(format!("256 leaves round a point, {order:?}, seed {SEED}"));
        let away: Vec<u32> = (0..256).map(|_| random.between(1, 400)).collect();
        let pieces = ring(500, 600, &away, random);
        let table = build(&pieces, Fill::Least, order, random);
        assert_eq!(page_count(&table), ALL);
        for allowance in 1..=ALL {
            let answer = compared.nearest_piece(&table, 500, 600, allowance)?;
            assert_eq!(answer.2, allowance);
            let left = (allowance < ALL).then_some(0);
            assert_eq!(answer.3, left);
        }
    }
    Ok(())
}

/// A point by a rectangle, or anywhere.
fn point(rect: Rect, random: &mut Random) -> (u32, u32) {
    let mut coordinate = |low, high| match random.below(6) {
        0 => random.below(EDGE + 1),
        1 => EDGE.min(high + random.below(50)),
        _ => *random.pick(&along(low, high)),
    };
    let x = coordinate(rect.x1, rect.x2);
    (x, coordinate(rect.y1, rect.y2))
}

/// Points by pieces and pages of a table, which has some, and corners of the
/// cloth.
fn points(table: &[u32], count: usize, random: &mut Random) -> Vec<(u32, u32)> {
    let pieces = pieces_in(table);
    let mut points = Vec::new();
    for _ in 0..count {
        let page = random.below(page_count(table));
        let of_page = page_bounds(table, page).expect("a page with entries");
        points.push(point(random.pick(&pieces).1, random));
        points.push(point(of_page, random));
    }
    points.push((EDGE * random.below(2), EDGE * random.below(2)));
    points
}

/// Every allowance from 1 to 341, by turns on the samples of 1,024 pieces.
fn every_allowance(compared: &mut Compared) -> Outcome {
    let random = &mut Random::new(SEED);
    let mut full = tables::samples();
    full.retain(|(_, table)| piece_count(table) == 1024);
    let tables = full.len();
    assert!(tables > 3);
    for (first, (name, table)) in (1..).zip(full) {
        compared.case(format!("{name}, many allowances, seed {SEED}"));
        let points = points(&table, 2, random);
        for allowance in (first..=ALL).step_by(tables) {
            let (x, y) = *random.pick(&points);
            compared.nearest_piece(&table, x, y, allowance)?;
        }
    }
    Ok(())
}

/// Few pages often, and now and then many.
fn some_allowances(random: &mut Random) -> [u32; 5] {
    let few = random.between(1, 6);
    [1, few, random.between(2, 20), random.between(1, ALL), ALL]
}

/// One table: points of every kind, with small and large allowances.
fn one_table(
    compared: &mut Compared,
    table: &[u32],
    count: usize,
    met: &mut Met,
    random: &mut Random,
) -> Outcome {
    for (x, y) in points(table, count, random) {
        for allowance in some_allowances(random) {
            met.note(compared.nearest_piece(table, x, y, allowance)?);
        }
    }
    Ok(())
}

/// The named samples, all but the one without pieces.
fn samples(compared: &mut Compared) -> Outcome {
    let random = &mut Random::new(SEED);
    let mut met = Met::default();
    for (name, table) in tables::samples() {
        if piece_count(&table) == 0 {
            continue;
        }
        compared.case(format!("{name}, seed {SEED}"));
        one_table(compared, &table, 6, &mut met, random)?;
    }
    met.assert_each(1);
    Ok(())
}

/// Tables that place calls make.
fn placed_tables(compared: &mut Compared) -> Outcome {
    let random = &mut Random::new(SEED);
    for family in Family::ALL {
        for count in [2, 8, 9, 90] {
            compared.case(format!("{count} of {family:?}, placed, seed {SEED}"));
            let table = placed(&family.pieces(count, random));
            one_table(compared, &table, 5, &mut Met::default(), random)?;
        }
    }
    Ok(())
}

/// Tables built from the leaves up, which place calls never make, with any page
/// numbers and fills.
fn built_tables(compared: &mut Compared) -> Outcome {
    let random = &mut Random::new(SEED);
    let mut met = Met::default();
    for family in Family::ALL {
        for fill in FILLS {
            for order in ORDERS {
                let most = *random.pick(&[20, 100, 1024]);
                let count = random.between(1, most) as usize;
                compared.case(format!(
                    "{count} of {family:?}, {fill:?}, {order:?}, seed {SEED}"
                ));
                let mut pieces = family.pieces(count, random);
                if random.one_in(2) {
                    pieces.sort_by_key(|piece| (piece.1.y1 / 5000, piece.1.x1));
                }
                let table = build(&pieces, fill, order, random);
                one_table(compared, &table, 4, &mut met, random)?;
            }
        }
    }
    met.assert_each(1);
    Ok(())
}
