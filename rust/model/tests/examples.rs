//! The examples of document 01 that need a table.

use model::pages::{read_page, Entry};
use model::tables::{nine_pieces, placed};
use model::{check, empty, front, opened_pages, place, query, Rect, TABLE_WORDS};

const EQUAL: u64 = 1 << 5;

fn empty_table() -> Vec<u32> {
    let mut table = vec![0; TABLE_WORDS];
    assert_eq!(empty(&mut table), 0);
    table
}

fn entry(x1: u32, y1: u32, x2: u32, y2: u32, r: u32) -> Entry {
    Entry {
        rect: Rect::new(x1, y1, x2, y2),
        r,
    }
}

/// "Pieces 0 to 8 .. placed in order: pages 0 (pieces 0 to 3) and 1 (4 to 8),
/// root 2, entries (0, 0, 35, 5, 0) and (40, 0, 85, 5, 1)."
#[test]
fn nine_pieces_make_three_pages() {
    let table = placed(&nine_pieces());
    assert_eq!(table[..3], [3, 2, 9]);

    let piece = |c| entry(10 * c, 0, 10 * c + 5, 5, c);
    let leaves: [Vec<Entry>; 2] = [(0..4).map(piece).collect(), (4..9).map(piece).collect()];
    for (number, entries) in leaves.into_iter().enumerate() {
        let page = read_page(&table, number as u32);
        assert_eq!((page.level, page.entries), (0, entries));
    }

    let page = read_page(&table, 2);
    let entries = [entry(0, 0, 35, 5, 0), entry(40, 0, 85, 5, 1)];
    assert_eq!((page.level, &page.entries[..]), (1, &entries[..]));

    assert!(table[3 + 3 * 42..].iter().all(|&word| word == 0));
    assert_eq!(check(&table), (0, 9));
}

/// ""Equal" to (80, 0, 85, 5) lists 8 and opens 2 pages."
#[test]
fn equal_to_the_last_of_nine() {
    let table = placed(&nine_pieces());
    let reference = Rect::new(80, 0, 85, 5);
    let mut answer = [77; 20];
    assert_eq!(query(&table, reference, &[EQUAL], &mut answer), (0, 1, 2));
    assert_eq!(front(&answer, 1), [8]);
    assert!(answer[1..].iter().all(|&word| word == 77));

    let mut pages = [77; 20];
    assert_eq!(
        opened_pages(&table, reference, &[EQUAL], &mut pages),
        (0, 2)
    );
    pages[..2].sort_unstable();
    assert_eq!(pages[..3], [1, 2, 77]);
}

/// "Valid: edge 1,000,000, number 1,023. Refused: edge 1,000,001, x1 = x2,
/// number 1,024."
#[test]
fn valid_and_refused() {
    let mut table = empty_table();
    assert_eq!(
        place(&mut table, 1023, Rect::new(0, 0, 1_000_000, 1_000_000)),
        0
    );
    let before = table.clone();
    assert_eq!(place(&mut table, 5, Rect::new(0, 0, 1_000_001, 10)), 2);
    assert_eq!(place(&mut table, 5, Rect::new(10, 0, 10, 10)), 2);
    assert_eq!(place(&mut table, 1024, Rect::new(0, 0, 10, 10)), 3);
    assert_eq!(place(&mut table, 1023, Rect::new(0, 0, 10, 10)), 7);
    assert_eq!(table, before);
}

/// "The root is always opened, also when empty."
#[test]
fn the_empty_table() {
    let table = empty_table();
    let anywhere = Rect::new(0, 0, 1, 1);
    assert_eq!(check(&table), (0, 0));
    assert_eq!(query(&table, anywhere, &[EQUAL], &mut []), (0, 0, 1));
    assert_eq!(opened_pages(&table, anywhere, &[EQUAL], &mut []), (8, 0));
    let mut pages = [9, 9];
    assert_eq!(opened_pages(&table, anywhere, &[EQUAL], &mut pages), (0, 1));
    assert_eq!(pages, [0, 9]);
}

/// Refusal 8 "shorter than the piece count (query) or than k (opened pages)",
/// however few hits or opened pages there are.
#[test]
fn answers_too_short() {
    let table = placed(&nine_pieces());
    let nowhere = Rect::new(500, 500, 501, 501);
    assert_eq!(query(&table, nowhere, &[EQUAL], &mut [7; 8]), (8, 0, 0));
    assert_eq!(query(&table, nowhere, &[EQUAL], &mut [7; 9]), (0, 0, 1));
    assert_eq!(opened_pages(&table, nowhere, &[EQUAL], &mut [7; 2]), (8, 0));
    assert_eq!(opened_pages(&table, nowhere, &[EQUAL], &mut [7; 3]), (0, 1));
}

/// "query and opened pages 1, 6, 2, 4, 5, 8": each stands before the next.
#[test]
fn the_order_of_refusals() {
    let sound = placed(&nine_pieces());
    let mut damaged = sound.clone();
    damaged[2] = 10;
    let (good, bad) = (Rect::new(0, 0, 1, 1), Rect::new(0, 0, 0, 1));
    let asked = |table: &[u32], rect, clauses: &[u64]| query(table, rect, clauses, &mut []);
    assert_eq!(asked(&damaged[..14_324], bad, &[]), (1, 0, 0));
    assert_eq!(asked(&damaged, bad, &[]), (6, 0, 0));
    assert_eq!(asked(&sound, bad, &[]), (2, 0, 0));
    assert_eq!(asked(&sound, good, &[]), (4, 0, 0));
    assert_eq!(asked(&sound, good, &[0; 9]), (4, 0, 0));
    assert_eq!(asked(&sound, good, &[0; 8]), (5, 0, 0));
    assert_eq!(asked(&sound, good, &[EQUAL]), (8, 0, 0));
}

/// "place 1, 6, 2, 3, 7".
#[test]
fn the_order_of_refusals_of_place() {
    let sound = placed(&nine_pieces());
    let mut damaged = sound.clone();
    damaged[2] = 10;
    let (good, bad) = (Rect::new(0, 0, 1, 1), Rect::new(0, 0, 0, 1));
    let placed = |table: &[u32], number, rect| place(&mut table.to_vec(), number, rect);
    assert_eq!(placed(&damaged[..14_324], 1024, bad), 1);
    assert_eq!(placed(&damaged, 1024, bad), 6);
    assert_eq!(placed(&sound, 1024, bad), 2);
    assert_eq!(placed(&sound, 1024, good), 3);
    assert_eq!(placed(&sound, 8, bad), 2);
    assert_eq!(placed(&sound, 8, good), 7);
    assert_eq!(placed(&sound, 9, good), 0);
}

/// Words after the first 14,325 count for nothing and are never touched.
#[test]
fn words_after_the_table() {
    let mut table = placed(&nine_pieces());
    table.extend([1, 2, 3]);
    assert_eq!(check(&table), (0, 9));
    assert_eq!(place(&mut table, 100, Rect::new(0, 0, 5, 5)), 0);
    assert_eq!(table[TABLE_WORDS..], [1, 2, 3]);
}

/// The order of ties in placing: growth, then area, then place.
#[test]
fn ties_in_placing() {
    // Nine equal squares make two leaves with the same bounds, 4 and 5.
    let square = Rect::new(0, 0, 4, 4);
    let mut table = empty_table();
    for number in 0..9 {
        assert_eq!(place(&mut table, number, square), 0);
    }
    assert_eq!(table[..3], [3, 2, 9]);
    // Equal growth and area: the lower place, page 0.
    assert_eq!(place(&mut table, 9, square), 0);
    assert_eq!(read_page(&table, 0).entries[4], entry(0, 0, 4, 4, 9));
    // Page 0 grows to (0, 0, 5, 4); a square inside both now goes to page 1,
    // whose area is smaller.
    assert_eq!(place(&mut table, 10, Rect::new(4, 0, 5, 4)), 0);
    assert_eq!(place(&mut table, 11, Rect::new(1, 1, 2, 2)), 0);
    assert_eq!(read_page(&table, 1).entries[5], entry(1, 1, 2, 2, 11));
}

/// A split by y1, and equal keys that keep their order.
#[test]
fn a_split_by_y1() {
    let mut table = empty_table();
    // Higher than wide. Keys y1: 8, 8, 6, 6, 4, 4, 2, 2, 0.
    for number in 0..9 {
        let y = (9 - number) / 2 * 2;
        let rect = Rect::new(0, y, 5, y + 2);
        assert_eq!(place(&mut table, number, rect), 0);
    }
    let numbers = |page| -> Vec<u32> {
        let page = read_page(&table, page);
        page.entries.iter().map(|entry| entry.r).collect()
    };
    assert_eq!(numbers(0), [8, 6, 7, 4]);
    assert_eq!(numbers(1), [5, 2, 3, 0, 1]);
    assert_eq!(read_page(&table, 2).entries[0], entry(0, 0, 5, 6, 0));
    assert_eq!(read_page(&table, 2).entries[1], entry(0, 4, 5, 10, 1));
}

/// As wide as high: by x1.
#[test]
fn a_split_of_a_square() {
    let mut table = empty_table();
    for number in 0..9 {
        let (x, y) = (8 - number, number);
        assert_eq!(place(&mut table, number, Rect::new(x, y, x + 1, y + 1)), 0);
    }
    let numbers: Vec<u32> = read_page(&table, 0).entries.iter().map(|e| e.r).collect();
    assert_eq!(numbers, [8, 7, 6, 5]);
}
