//! The three demands, tried on the model by brute force: the book of what
//! stands for the listings, the quarter-unit rule itself for the pages.

use model::clauses::{admits, rows};
use model::codes::configuration;
use model::inside::opens_by_quarters;
use model::pages::{entries, is_leaf, level, page_count, root};
use model::random::Random;
use model::tables::{build, pieces_in, Family, Fill, Order};
use model::{check, empty, front, opened_pages, place, query, Rect, PIECES, TABLE_WORDS};

/// "one slot for each number from 0 to 1,023, all blank at the start"
struct Book([Option<Rect>; PIECES]);

impl Book {
    fn new() -> Book {
        Book([None; PIECES])
    }

    /// "If the number is at most 1,023, the rectangle valid and the slot of
    /// that number blank, the rectangle is written there." Says whether.
    fn feed(&mut self, number: u32, rect: Rect) -> bool {
        match self.0.get_mut(number as usize) {
            Some(slot) if slot.is_none() && rect.is_valid() => {
                *slot = Some(rect);
                true
            }
            _ => false,
        }
    }

    /// The numbers whose standing rectangle the query admits, rising.
    fn listing(&self, reference: Rect, clauses: &[u64]) -> Vec<u16> {
        let slots = self.0.iter().enumerate();
        let standing = slots.filter_map(|(number, slot)| Some((number as u16, (*slot)?)));
        standing
            .filter(|&(_, rect)| {
                let (i, j) = configuration(rect, reference);
                admits(clauses, i, j)
            })
            .map(|(number, _)| number)
            .collect()
    }
}

fn some_clauses(random: &mut Random) -> Vec<u64> {
    let clause = |random: &mut Random| {
        (0..random.between(1, 4)).fold(0, |clause, _| clause | 1 << random.below(40))
    };
    (0..random.between(1, 3)).map(|_| clause(random)).collect()
}

/// A rectangle that may be wrong in some way.
fn some_rect(family: Family, random: &mut Random) -> Rect {
    let mut rect = family.rect(random.below(1024), random);
    match random.below(20) {
        0 => rect.x1 = rect.x2,
        1 => rect.y1 = rect.y2 + 1,
        2 => rect.x2 = 1_000_001,
        3 => rect.y1 = random.word(),
        _ => {}
    }
    rect
}

#[test]
fn demand_3_the_listing_is_read_from_the_calls_alone() {
    let mut random = Random::new(31);
    for family in Family::ALL {
        let mut table = vec![random.word(); TABLE_WORDS];
        empty(&mut table);
        let mut book = Book::new();
        for call in 0..1500 {
            let (number, rect) = (random.below(1100), some_rect(family, &mut random));
            let accepted = place(&mut table, number, rect) == 0;
            assert_eq!(accepted, book.feed(number, rect));
            if call % 30 != 0 {
                continue;
            }
            assert_eq!(check(&table).0, 0);
            let reference = family.rect(random.below(1024), &mut random);
            let clauses = some_clauses(&mut random);
            let mut answer = [0; PIECES];
            let (refusal, hits, _) = query(&table, reference, &clauses, &mut answer);
            assert_eq!(refusal, 0);
            let listing = book.listing(reference, &clauses);
            assert_eq!(front(&answer, hits as usize), listing);
        }
    }
}

#[test]
fn demand_3_equal_finds_every_piece() {
    let mut random = Random::new(32);
    for family in [Family::Grid, Family::Tiny, Family::Spread] {
        let pieces = family.pieces(1024, &mut random);
        let table = model::tables::placed(&pieces);
        for (number, rect) in pieces {
            let mut answer = [0; PIECES];
            let (_, hits, _) = query(&table, rect, &[1 << 5], &mut answer);
            assert!(front(&answer, hits as usize).contains(&(number as u16)));
        }
    }
}

/// Walks the table by the words of demand 2 alone.
fn opened_by_quarters(table: &[u32], reference: Rect, clauses: &[u64]) -> Vec<u16> {
    fn open(table: &[u32], page: u32, asked: &dyn Fn(Rect) -> bool, opened: &mut Vec<u16>) {
        opened.push(page as u16);
        if !is_leaf(table, page) {
            for entry in entries(table, page).filter(|entry| asked(entry.rect)) {
                open(table, entry.r, asked, opened);
            }
        }
    }
    let rows = rows(clauses);
    let asked = |page: Rect| opens_by_quarters(&rows, page, reference);
    let mut opened = Vec::new();
    open(table, root(table), &asked, &mut opened);
    opened.sort_unstable();
    opened
}

#[test]
fn demand_2_on_tables_that_place_never_makes() {
    let mut random = Random::new(21);
    for round in 0..60 {
        let fill = *random.pick(&[Fill::Least, Fill::Most, Fill::Mixed]);
        let count = random.between(0, 70) as usize;
        let mut pieces = Family::Tiny.pieces(count, &mut random);
        if round % 2 == 0 {
            pieces.sort_by_key(|piece| piece.1.x1);
        }
        let table = build(&pieces, fill, Order::Shuffled, &mut random);
        let reference = Family::Tiny.rect(0, &mut random);
        let clauses = some_clauses(&mut random);

        let mut book = Book::new();
        for (number, rect) in pieces_in(&table) {
            book.feed(number, rect);
        }
        let mut answer = [0; PIECES];
        let (refusal, hits, opened) = query(&table, reference, &clauses, &mut answer);
        assert_eq!(refusal, 0);
        let listing = book.listing(reference, &clauses);
        assert_eq!(front(&answer, hits as usize), listing);

        let mut pages = [0; 341];
        let (refusal, count) = opened_pages(&table, reference, &clauses, &mut pages);
        assert_eq!((refusal, count), (0, opened));
        pages[..count as usize].sort_unstable();
        let expected = opened_by_quarters(&table, reference, &clauses);
        assert_eq!(pages[..count as usize], expected);
    }
}

#[test]
fn demand_1_any_words_end_in_an_answer_or_a_refusal() {
    let mut random = Random::new(11);
    for _ in 0..300 {
        let length = *random.pick(&[0, 1, 2, 3, 44, 14_324, 14_325, 14_400]);
        let limit = *random.pick(&[2, 10, 400, u32::MAX]);
        let mut table: Vec<u32> = (0..length).map(|_| random.below(limit)).collect();
        let before = table.clone();
        let rect = some_rect(Family::Tiny, &mut random);
        let refusal = place(&mut table, random.below(1100), rect);
        assert!((1..=8).contains(&refusal));
        assert_eq!(table, before);
        let mut answer = [5; 1024];
        let (refusal, hits, opened) = query(&table, rect, &[random.any()], &mut answer);
        assert!((1..=8).contains(&refusal));
        assert_eq!((hits, opened), (0, 0));
        assert_eq!(answer, [5; 1024]);
    }
}

/// "The 341 pages always suffice", also when the last pieces go into a table of
/// least fill.
#[test]
fn the_341_pages_always_suffice() {
    let mut random = Random::new(41);
    for family in Family::ALL {
        for start in [500, 900, 1000, 1020, 1023] {
            let mut pieces = family.pieces(1024, &mut random);
            let late = pieces.split_off(start);
            let mut table = build(&pieces, Fill::Least, Order::Shuffled, &mut random);
            for (number, rect) in late {
                assert_eq!(place(&mut table, number, rect), 0);
            }
            assert_eq!(check(&table), (0, 1024));
            assert!(page_count(&table) <= 341);
            assert!(level(&table, root(&table)) <= 4);
        }
    }
}
