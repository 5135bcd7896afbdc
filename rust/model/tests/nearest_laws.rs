//! Laws of the nearest piece, by brute force.

use model::nearest::{nearest_piece, opened, squared_distance};
use model::pages::{entries, is_leaf, page_bounds, page_count, page_numbers, piece_count};
use model::pages::{pieces, root};
use model::random::Random;
use model::sizes::{EDGE, PAGES};
use model::tables::{build, pieces_in, samples, Draft, Family, Fill, Order};
use model::{check, Rect};

const ALL: u32 = PAGES as u32;

/// An accepted call: the piece, how many pages were opened, and what is left.
fn asked(table: &[u32], x: u32, y: u32, allowance: u32) -> (Option<(u32, u64)>, u32, Option<u64>) {
    let (refusal, piece, opened, left) = nearest_piece(table, x, y, allowance);
    assert_eq!(refusal, 0);
    (piece, opened, left)
}

/// To the point of the rectangle that is nearest.
fn distance(x: u32, y: u32, rect: Rect) -> u64 {
    let east = u64::from(x.clamp(rect.x1, rect.x2).abs_diff(x));
    let north = u64::from(y.clamp(rect.y1, rect.y2).abs_diff(y));
    east.pow(2) + north.pow(2)
}

/// A point in or by a rectangle, or anywhere on the cloth.
fn point(rect: Rect, random: &mut Random) -> (u32, u32) {
    let along = |low: u32, high: u32, random: &mut Random| match random.below(7) {
        0 => low,
        1 => high,
        2 => low.saturating_sub(1),
        3 => EDGE.min(high + 1),
        4 => EDGE.min(high + random.below(20)),
        5 => random.between(0, EDGE),
        _ => random.between(low, high),
    };
    let x = along(rect.x1, rect.x2, random);
    (x, along(rect.y1, rect.y2, random))
}

/// Tables of every kind that have a piece: the samples, and built ones that
/// place calls never make.
fn tables(random: &mut Random) -> Vec<(String, Vec<u32>)> {
    let mut tables: Vec<(String, Vec<u32>)> = samples()
        .into_iter()
        .map(|(name, table)| (name.to_string(), table))
        .collect();
    tables.retain(|(_, table)| piece_count(table) > 0);
    for family in Family::ALL {
        for fill in [Fill::Least, Fill::Most, Fill::Mixed] {
            for order in [Order::LeavesFirst, Order::RootFirst, Order::Shuffled] {
                let most = *random.pick(&[1, 9, 60, 300, 1024]);
                let count = random.between(1, most) as usize;
                let mut pieces = family.pieces(count, random);
                if random.one_in(2) {
                    pieces.sort_by_key(|piece| (piece.1.x1, piece.1.y1));
                }
                let name = format!("{count} of {family:?}, {fill:?}, {order:?}");
                tables.push((name, build(&pieces, fill, order, random)));
            }
        }
    }
    tables
}

/// Every table, with points by its pieces and its pages, at the corners of the
/// cloth and anywhere.
fn for_many(seed: u64, mut law: impl FnMut(&str, &[u32], u32, u32)) {
    let random = &mut Random::new(seed);
    for (name, table) in tables(random) {
        assert_eq!(check(&table).0, 0);
        let mut points = vec![(0, 0), (0, EDGE), (EDGE, 0), (EDGE, EDGE)];
        let pieces = pieces_in(&table);
        for _ in 0..6 {
            points.push(point(random.pick(&pieces).1, random));
            let page = random.below(page_count(&table));
            points.push(point(page_bounds(&table, page).unwrap(), random));
        }
        for (x, y) in points {
            law(&format!("{name}, ({x}, {y})"), &table, x, y);
        }
    }
}

/// Some allowances from 1 to 341.
const ALLOWANCES: [u32; 9] = [1, 2, 3, 4, 6, 11, 40, 340, ALL];

#[test]
fn distances_by_all_points_of_the_rectangle() {
    let ends = |low, high| (low..high).flat_map(move |a| (a + 1..=high).map(move |b| (a, b)));
    for (x1, x2) in ends(0, 5) {
        for (y1, y2) in ends(0, 4) {
            let rect = Rect::new(x1, y1, x2, y2);
            for x in 0..=8 {
                for y in 0..=8 {
                    let columns = x1..=x2;
                    let points = columns.flat_map(|at| (y1..=y2).map(move |to| (at, to)));
                    let squares = points.map(|(at, to): (u32, u32)| {
                        let (east, north) = (at.abs_diff(x), to.abs_diff(y));
                        u64::from(east * east + north * north)
                    });
                    let least = squares.min().unwrap();
                    assert_eq!(squared_distance(x, y, rect), least, "({x}, {y}) {rect:?}");
                    assert_eq!(distance(x, y, rect), least);
                }
            }
        }
    }
}

/// The pages, each with the rectangle by which its parent names it, and the
/// parent. The root has neither.
fn named(table: &[u32]) -> Vec<Option<(Rect, u32)>> {
    let mut named = vec![None; page_count(table) as usize];
    for parent in page_numbers(table).filter(|&page| !is_leaf(table, page)) {
        for entry in entries(table, parent) {
            named[entry.r as usize] = Some((entry.rect, parent));
        }
    }
    named
}

/// The unopened reached pages: distance and number. "A page is reached when it
/// is the root or its parent has been opened."
fn waiting(table: &[u32], opened: &[u32], x: u32, y: u32) -> Vec<(u64, u32)> {
    let mut waiting = Vec::new();
    for (page, named) in (0..).zip(named(table)) {
        let (rect, is_reached) = match named {
            Some((rect, parent)) => (rect, opened.contains(&parent)),
            None => (page_bounds(table, page).unwrap(), true),
        };
        if is_reached && !opened.contains(&page) {
            waiting.push((distance(x, y, rect), page));
        }
    }
    waiting
}

/// The pieces of the opened leaves: distance and number.
fn met(table: &[u32], opened: &[u32], x: u32, y: u32) -> Vec<(u64, u32)> {
    let leaves = opened.iter().filter(|&&page| is_leaf(table, page));
    let pieces = leaves.flat_map(|&leaf| entries(table, leaf));
    pieces
        .map(|piece| (distance(x, y, piece.rect), piece.r))
        .collect()
}

/// How many of them have the least distance.
fn as_near(items: &[(u64, u32)]) -> usize {
    let least = items.iter().map(|item| item.0).min();
    items.iter().filter(|item| Some(item.0) == least).count()
}

/// The request's words for each page that is opened, and for the end.
#[test]
fn each_page_is_opened_by_the_rule() {
    let (mut ties, mut shut_as_near) = (0, 0);
    for_many(81, |case, table, x, y| {
        let order = opened(table, x, y, ALL);
        for step in 0..=order.len() {
            let before = &order[..step];
            let waiting = waiting(table, before, x, y);
            let best = met(table, before, x, y).into_iter().min();
            let is_nearer = |page: &(u64, u32)| best.is_none_or(|piece| page.0 < piece.0);
            if step < order.len() {
                let first = *waiting.iter().min().unwrap();
                assert_eq!(order[step], first.1, "{case}, step {step}");
                assert!(is_nearer(&first), "{case}, step {step}");
                ties += u32::from(as_near(&waiting) > 1);
            } else {
                assert!(!waiting.iter().any(is_nearer), "{case}");
                let least = waiting.into_iter().min();
                let both = least.zip(best);
                shut_as_near += u32::from(both.is_some_and(|(page, piece)| page.0 == piece.0));
            }
        }
    });
    assert!(ties > 300, "{ties}");
    assert!(shut_as_near > 100, "{shut_as_near}");
}

#[test]
fn what_is_returned_is_of_the_opened_pages() {
    let (mut ties, mut no_piece, mut none_left) = (0, 0, 0);
    for_many(82, |case, table, x, y| {
        for allowance in ALLOWANCES {
            let order = opened(table, x, y, allowance);
            let (met, waiting) = (met(table, &order, x, y), waiting(table, &order, x, y));
            let (piece, count, left) = asked(table, x, y, allowance);
            let best = met.iter().min();
            assert_eq!(piece, best.map(|&(far, number)| (number, far)), "{case}");
            assert_eq!(count, order.len() as u32, "{case}");
            assert_eq!(left, waiting.iter().min().map(|page| page.0), "{case}");
            ties += u32::from(as_near(&met) > 1);
            no_piece += u32::from(piece.is_none());
            none_left += u32::from(left.is_none());
        }
    });
    assert!(ties > 1_000, "{ties}");
    assert!(no_piece > 1_000, "{no_piece}");
    assert!(none_left > 300, "{none_left}");
}

#[test]
fn from_one_page_to_the_allowance() {
    for_many(83, |case, table, x, y| {
        for allowance in ALLOWANCES {
            let order = opened(table, x, y, allowance);
            let (_, count, _) = asked(table, x, y, allowance);
            assert!((1..=allowance).contains(&count), "{case}, {allowance}");
            assert!(count <= page_count(table));
            assert_eq!(order[0], root(table));
            let mut different = order.clone();
            different.sort_unstable();
            different.dedup();
            assert_eq!(different.len(), order.len(), "{case}, {allowance}");
        }
    });
}

/// "No piece is nearer than the smaller of the two distances, or than the only
/// one present."
#[test]
fn no_piece_is_nearer_than_both() {
    for_many(84, |case, table, x, y| {
        for allowance in ALLOWANCES {
            let (piece, _, left) = asked(table, x, y, allowance);
            let present = [piece.map(|piece| piece.1), left];
            let smaller = present.into_iter().flatten().min();
            let smaller = smaller.expect("a piece or a page");
            let nearer = pieces(table).find(|piece| distance(x, y, piece.rect) < smaller);
            assert_eq!(nearer, None, "{case}, {allowance}");
        }
    });
}

/// "With allowance 341 no piece of the table is nearer than the one returned",
/// and one is returned.
#[test]
fn with_341_pages_it_is_the_nearest() {
    for_many(85, |case, table, x, y| {
        let (piece, _, left) = asked(table, x, y, ALL);
        let (number, far) = piece.expect("a piece");
        let least = pieces(table).map(|piece| distance(x, y, piece.rect)).min();
        assert_eq!(Some(far), least, "{case}");
        let rect = pieces(table).find(|piece| piece.r == number).unwrap().rect;
        assert_eq!(distance(x, y, rect), far, "{case}");
        assert!(left.is_none_or(|left| left >= far), "{case}");
    });
}

/// A larger allowance opens the same pages first, and its piece is not farther.
fn rising(case: &str, table: &[u32], x: u32, y: u32, allowances: impl Iterator<Item = u32>) {
    let (mut before, mut least) = (Vec::new(), None);
    for allowance in allowances {
        let order = opened(table, x, y, allowance);
        assert!(order.starts_with(&before), "{case}, {allowance}");
        let (piece, _, _) = asked(table, x, y, allowance);
        let far = piece.map(|piece| piece.1);
        if let Some(least) = least {
            let far = far.expect("still a piece");
            assert!(far <= least, "{case}, {allowance}");
        }
        (before, least) = (order, far);
    }
}

#[test]
fn a_larger_allowance_is_not_farther() {
    for_many(86, |case, table, x, y| {
        rising(case, table, x, y, ALLOWANCES.into_iter())
    });
}

/// All allowances on full tables.
#[test]
fn every_allowance_on_full_tables() {
    let random = &mut Random::new(87);
    for (name, table) in samples() {
        if piece_count(&table) < 1024 {
            continue;
        }
        let (x, y) = point(random.pick(&pieces_in(&table)).1, random);
        rising(&format!("{name}, ({x}, {y})"), &table, x, y, 1..=ALL);
    }
}

/// A child lies within its parent, so no page is nearer than one opened before.
#[test]
fn pages_are_opened_in_rising_distance() {
    for_many(88, |case, table, x, y| {
        let order = opened(table, x, y, ALL);
        let far = |&page: &u32| distance(x, y, page_bounds(table, page).unwrap());
        let distances: Vec<u64> = order.iter().map(far).collect();
        assert!(distances.is_sorted(), "{case}: {distances:?}");
    });
}

/// The same table and point, all rectangles changed alike: distances, numbers
/// and pages stay.
fn changed_alike(seed: u64, rect: impl Fn(Rect) -> Rect, at: impl Fn(u32, u32) -> (u32, u32)) {
    for_many(seed, |case, table, x, y| {
        let mut draft = Draft::of(table);
        for page in &mut draft.pages {
            for entry in &mut page.entries {
                entry.rect = rect(entry.rect);
            }
        }
        let (changed, (to_x, to_y)) = (draft.words(), at(x, y));
        assert_eq!(check(&changed).0, 0);
        for allowance in [1, 3, 7, ALL] {
            let there = opened(&changed, to_x, to_y, allowance);
            assert_eq!(there, opened(table, x, y, allowance), "{case}");
            let there = nearest_piece(&changed, to_x, to_y, allowance);
            assert_eq!(there, nearest_piece(table, x, y, allowance), "{case}");
        }
    });
}

#[test]
fn mirrored_from_west_to_east() {
    changed_alike(
        89,
        |r| Rect::new(EDGE - r.x2, r.y1, EDGE - r.x1, r.y2),
        |x, y| (EDGE - x, y),
    );
}

#[test]
fn x_and_y_exchanged() {
    changed_alike(90, |r| Rect::new(r.y1, r.x1, r.y2, r.x2), |x, y| (y, x));
}

/// A quarter turn clockwise: what was north is east.
#[test]
fn turned_clockwise() {
    changed_alike(
        91,
        |r| Rect::new(r.y1, EDGE - r.x2, r.y2, EDGE - r.x1),
        |x, y| (y, EDGE - x),
    );
}

/// Where an entry stands in its page says nothing.
#[test]
fn entries_in_any_order() {
    let random = &mut Random::new(92);
    for_many(92, |case, table, x, y| {
        let mut draft = Draft::of(table);
        for page in &mut draft.pages {
            random.shuffle(&mut page.entries);
        }
        let shuffled = draft.words();
        for allowance in [1, 3, 7, ALL] {
            let there = nearest_piece(&shuffled, x, y, allowance);
            assert_eq!(there, nearest_piece(table, x, y, allowance), "{case}");
        }
    });
}

/// Words after the table are no part of it.
#[test]
fn words_after_the_table() {
    for_many(93, |case, table, x, y| {
        let longer = [table, &[1, 2, 3]].concat();
        let there = nearest_piece(&longer, x, y, 5);
        assert_eq!(there, nearest_piece(table, x, y, 5), "{case}");
    });
}
