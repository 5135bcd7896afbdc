//! Laws of turned lays, by brute force.

use model::clauses::admits;
use model::codes::{configuration, configurations, turned};
use model::random::Random;
use model::relations::belongs;
use model::sizes::EDGE;
use model::tables::{build, pairs_on, pieces_in, placed, within};
use model::tables::{Family, Fill, Order, Piece};
use model::turning::{turned_relation, NO_RECT};
use model::{admitted, empty, front, place, query};
use model::{turned_clause, turned_rect, Rect, PIECES, TABLE_WORDS};

/// Something after so many turns.
fn after<T>(turns: u32, turn: impl Fn(T) -> T, start: T) -> T {
    (0..turns).fold(start, |item, _| turn(item))
}

/// Rectangles of four numbers each, most of them not valid.
fn any_rectangles() -> Vec<Rect> {
    let numbers = [0, 1, 5, EDGE / 2, EDGE - 1, EDGE, EDGE + 1, u32::MAX];
    let mut all = Vec::new();
    for x1 in numbers {
        for y1 in numbers {
            for x2 in numbers {
                all.extend(numbers.map(|y2| Rect::new(x1, y1, x2, y2)));
            }
        }
    }
    let random = &mut Random::new(71);
    for limit in [3, 10, EDGE + 2, u32::MAX] {
        let mut number = || random.below(limit);
        all.extend((0..2_000).map(|_| Rect::new(number(), number(), number(), number())));
    }
    all
}

/// All single bits, clauses that are valid and clauses of any bits.
fn any_clauses() -> Vec<u64> {
    let random = &mut Random::new(72);
    let mut all: Vec<u64> = (0..64).map(|bit| 1 << bit).collect();
    all.extend([0, u64::MAX]);
    all.extend((0..1_000).map(|_| clause(random)));
    all.extend((0..1_000).map(|_| random.any()));
    all
}

/// A valid clause, most often one that names few relations.
fn clause(random: &mut Random) -> u64 {
    let most = *random.pick(&[1, 3, 30]);
    let named = random.between(1, most);
    (0..named).fold(0, |clause, _| clause | 1 << random.below(40))
}

/// One to eight of them, most often a few.
fn wish(random: &mut Random) -> Vec<u64> {
    let most = *random.pick(&[1, 2, 3, 8]);
    let count = random.between(1, most);
    (0..count).map(|_| clause(random)).collect()
}

#[test]
fn valid_exactly_when_the_rectangle_is() {
    let (mut valid, all) = (0, any_rectangles());
    for &rect in &all {
        let turned = turned_rect(rect);
        assert_eq!(turned.is_valid(), rect.is_valid(), "{rect:?}");
        if rect.is_valid() {
            assert_eq!(turned.width(), rect.height());
            assert_eq!(turned.height(), rect.width());
            valid += 1;
        } else {
            assert_eq!(turned, NO_RECT);
        }
    }
    assert!(1_000 < valid && valid < all.len() - 1_000);
}

/// Refused with the same number, or not refused.
#[test]
fn clauses_are_valid_alike() {
    for clause in any_clauses() {
        let turned = turned_clause(clause);
        assert_eq!(admitted(&[turned]).0, admitted(&[clause]).0, "{clause:#x}");
        assert_eq!(turned.count_ones(), clause.count_ones());
    }
}

#[test]
fn four_turns_are_no_turn() {
    for rect in any_rectangles() {
        let start = if rect.is_valid() { rect } else { NO_RECT };
        assert_eq!(after(4, turned_rect, rect), start);
    }
    for clause in any_clauses() {
        assert_eq!(after(4, turned_clause, clause), clause);
    }
}

/// One, two or three turns are none only where nothing points anywhere.
#[test]
fn fewer_turns_are_a_turn() {
    let aside = Rect::new(5, 0, 20, 7);
    for turns in 1..4 {
        assert_ne!(after(turns, turned_rect, aside), aside);
        for t in 0..64 {
            let is_directed = (8..40).contains(&t);
            let comes_back = after(turns, turned_clause, 1 << t) == 1 << t;
            assert_eq!(comes_back, !is_directed, "{turns} turns of {t}");
        }
    }
}

/// A piece in configuration (i, j) stands in (j turned round, i) after the turn.
fn goes_round(piece: Rect, reference: Rect) {
    let (i, j) = configuration(piece, reference);
    let found = configuration(turned_rect(piece), turned_rect(reference));
    assert_eq!(found, (turned(j), i), "{piece:?} {reference:?}");
}

#[test]
fn configurations_go_round() {
    let fifths = [0, 1, 2, 3, 4, 5].map(|step| step * EDGE / 5);
    for numbers in [fifths, [0, 1, 2, EDGE - 2, EDGE - 1, EDGE]] {
        for (piece, reference) in pairs_on(&numbers) {
            goes_round(piece, reference);
        }
    }
    let random = &mut Random::new(73);
    for size in [8, 100, 65_536, EDGE] {
        for _ in 0..2_000 {
            goes_round(within(size, random), within(size, random));
        }
    }
}

/// All 40 relations over all 169 configurations.
#[test]
fn relations_go_round() {
    for t in 0..40 {
        for (i, j) in configurations() {
            let belongs_after = belongs(turned_relation(t), turned(j), i);
            assert_eq!(belongs(t, i, j), belongs_after, "{t}: ({i}, {j})");
        }
    }
}

#[test]
fn admitted_sets_go_round() {
    let random = &mut Random::new(74);
    for _ in 0..500 {
        let clauses = wish(random);
        let turned_clauses: Vec<u64> = clauses.iter().copied().map(turned_clause).collect();
        for (i, j) in configurations() {
            let is_admitted = admits(&turned_clauses, turned(j), i);
            assert_eq!(admits(&clauses, i, j), is_admitted, "{clauses:x?}");
        }
        let count = |clauses: &[u64]| admitted(clauses).2;
        assert_eq!(count(&clauses), count(&turned_clauses));
    }
}

/// The listing of a query that is not refused, with 1,024 answer words.
fn listing(table: &[u32], reference: Rect, clauses: &[u64]) -> Vec<u16> {
    let mut answer = [0; PIECES];
    let (refusal, hits, _) = query(table, reference, clauses, &mut answer);
    assert_eq!(refusal, 0);
    front(&answer, hits as usize).to_vec()
}

/// A rectangle of the family, or that of a piece.
fn some_reference(family: Family, pieces: &[Piece], random: &mut Random) -> Rect {
    if pieces.is_empty() || random.one_in(2) {
        family.rect(random.below(1024), random)
    } else {
        random.pick(pieces).1
    }
}

fn turned_pieces(pieces: &[Piece]) -> Vec<Piece> {
    let turned = |&(number, rect): &Piece| (number, turned_rect(rect));
    pieces.iter().map(turned).collect()
}

/// The tables of a list after no turn, one, two and three.
fn four_tables(pieces: &[Piece]) -> Vec<Vec<u32>> {
    let mut pieces = pieces.to_vec();
    let mut tables = Vec::new();
    for _ in 0..4 {
        tables.push(placed(&pieces));
        pieces = turned_pieces(&pieces);
    }
    tables
}

/// Asks each table the query turned as often; how many pieces were listed.
fn listed_alike(tables: &[Vec<u32>], reference: Rect, clauses: &[u64]) -> usize {
    let listed = listing(&tables[0], reference, clauses);
    for (turns, table) in (0..).zip(tables) {
        let reference = after(turns, turned_rect, reference);
        let clauses: Vec<u64> = clauses
            .iter()
            .map(|&clause| after(turns, turned_clause, clause))
            .collect();
        let found = listing(table, reference, &clauses);
        assert_eq!(found, listed, "{turns} turns, {reference:?}, {clauses:x?}");
    }
    listed.len()
}

/// "the turned query on the turned pieces lists the same numbers"
#[test]
fn turned_lays_list_the_same_numbers() {
    let random = &mut Random::new(75);
    for family in Family::ALL {
        for count in [0, 1, 8, 9, 60, 200] {
            let pieces = family.pieces(count, random);
            let tables = four_tables(&pieces);
            let (mut some, mut not_all) = (0, 0);
            for _ in 0..40 {
                let reference = some_reference(family, &pieces, random);
                let listed = listed_alike(&tables, reference, &wish(random));
                some += u32::from(listed > 0);
                not_all += u32::from(listed < count);
            }
            assert_eq!((some > 0, not_all > 0), (count > 0, count > 0));
        }
    }
}

/// The same with all pieces that a table can hold.
#[test]
fn turned_lays_of_1024_pieces() {
    let random = &mut Random::new(76);
    for family in [Family::Tiny, Family::Spread] {
        let pieces = family.pieces(PIECES, random);
        let tables = four_tables(&pieces);
        for _ in 0..20 {
            let reference = some_reference(family, &pieces, random);
            listed_alike(&tables, reference, &wish(random));
        }
    }
}

/// A number and a rectangle, either of which may be refused.
fn some_call(family: Family, random: &mut Random) -> Piece {
    let mut rect = family.rect(random.below(1024), random);
    match random.below(12) {
        0 => rect.x1 = rect.x2,
        1 => rect.y2 = rect.y1,
        2 => rect.x2 = EDGE + 1,
        3 => rect.y1 = random.word(),
        _ => {}
    }
    let limit = *random.pick(&[100, 1_100]);
    (random.below(limit), rect)
}

/// Place calls of all kinds and their turned ones, side by side: the same ones
/// are refused, with the same numbers, and the same pieces stand.
#[test]
fn place_calls_are_refused_alike() {
    let random = &mut Random::new(77);
    for family in Family::ALL {
        let mut tables = vec![vec![random.word(); TABLE_WORDS]; 4];
        for table in &mut tables {
            assert_eq!(empty(table), 0);
        }
        let mut met = [0; 8];
        for _ in 0..200 {
            let (number, rect) = some_call(family, random);
            let refusals: Vec<u32> = (0..)
                .zip(&mut tables)
                .map(|(turns, table)| place(table, number, after(turns, turned_rect, rect)))
                .collect();
            assert_eq!(refusals, [refusals[0]; 4], "{number} at {rect:?}");
            met[refusals[0] as usize] += 1;
        }
        let refused_by: Vec<usize> = (0..8).filter(|&number| met[number] > 0).collect();
        assert_eq!(refused_by, [0, 2, 3, 7], "{family:?}");
        let pieces = pieces_in(&tables[0]);
        assert_eq!(pieces_in(&tables[1]), turned_pieces(&pieces));
        for _ in 0..20 {
            let reference = some_reference(family, &pieces, random);
            listed_alike(&tables, reference, &wish(random));
        }
    }
}

/// A query with a fault is refused after the turn with the same number.
#[test]
fn queries_are_refused_alike() {
    let (good, bad) = (Rect::new(5, 0, 20, 7), Rect::new(5, 0, 5, 7));
    let lists: [&[u64]; 6] = [&[1 << 15], &[], &[1; 9], &[0], &[1 << 40], &[1, 1 << 63]];
    let tables = four_tables(&[(3, good)]);
    let refusal = |table: &[u32], reference, clauses: &[u64], length| {
        query(table, reference, clauses, &mut vec![0; length]).0
    };
    for reference in [good, bad] {
        for clauses in lists {
            let turned_clauses: Vec<u64> = clauses.iter().copied().map(turned_clause).collect();
            for length in [0, 1] {
                let before = refusal(&tables[0], reference, clauses, length);
                let turned_reference = turned_rect(reference);
                let now = refusal(&tables[1], turned_reference, &turned_clauses, length);
                assert_eq!(now, before);
            }
        }
    }
}

/// The numbers that stand in both listings.
fn both(one: &[u16], other: &[u16]) -> Vec<u16> {
    let in_other = |number: &u16| other.contains(number);
    one.iter().copied().filter(in_other).collect()
}

/// "a query of two clauses lists exactly the pieces that both single clauses
/// list", and a query of more those that its two parts list.
fn parts_agree(table: &[u32], reference: Rect, clauses: &[u64]) {
    let whole = listing(table, reference, clauses);
    for cut in 1..clauses.len() {
        let (one, other) = clauses.split_at(cut);
        let one = listing(table, reference, one);
        let other = listing(table, reference, other);
        assert_eq!(whole, both(&one, &other), "{reference:?}, {clauses:x?}");
    }
}

/// Queries of two clauses, and of two to eight.
fn queries_in_parts(table: &[u32], family: Family, random: &mut Random) {
    let pieces = pieces_in(table);
    for _ in 0..10 {
        let reference = some_reference(family, &pieces, random);
        parts_agree(table, reference, &[clause(random), clause(random)]);
        let more: Vec<u64> = (0..random.between(2, 8)).map(|_| clause(random)).collect();
        parts_agree(table, reference, &more);
    }
}

/// On tables that place calls make, and on such as they never make.
#[test]
fn a_query_of_two_clauses_lists_what_both_list() {
    let random = &mut Random::new(78);
    for family in Family::ALL {
        for count in [0, 5, 40, 150] {
            let pieces = family.pieces(count, random);
            queries_in_parts(&placed(&pieces), family, random);
            for fill in [Fill::Least, Fill::Most, Fill::Mixed] {
                let table = build(&pieces, fill, Order::Shuffled, random);
                queries_in_parts(&table, family, random);
            }
        }
    }
}
