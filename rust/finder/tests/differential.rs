//! The finder beside the model: every suite of `compare`, all calls, all words.
//! Seeds are fixed; they stand in what a difference says.

use compare::{suites, Calls, Compared};
use finder::{raw, Rect};
use model::nearest::Nearest;
use model::tiles::Shares;

/// The finder as the calls to compare.
struct Finder;

fn rect(rect: model::Rect) -> Rect {
    Rect::new(rect.x1, rect.y1, rect.x2, rect.y2)
}

fn back(rect: Rect) -> model::Rect {
    model::Rect::new(rect.x1, rect.y1, rect.x2, rect.y2)
}

impl Calls for Finder {
    fn empty(&self, table: &mut [u32]) -> u32 {
        raw::empty(table)
    }

    fn check(&self, table: &[u32]) -> (u32, u32) {
        let checked = raw::check(table);
        (checked.refusal, checked.pieces)
    }

    fn place(&self, table: &mut [u32], number: u32, at: model::Rect) -> u32 {
        raw::place(table, number, rect(at))
    }

    fn query(
        &self,
        table: &[u32],
        reference: model::Rect,
        clauses: &[u64],
        answer: &mut [u16],
    ) -> (u32, u32, u32) {
        let found = raw::query(table, rect(reference), clauses, answer);
        (found.refusal, found.hits, found.opened)
    }

    fn opened_pages(
        &self,
        table: &[u32],
        reference: model::Rect,
        clauses: &[u64],
        answer: &mut [u16],
    ) -> (u32, u32) {
        let opened = raw::opened_pages(table, rect(reference), clauses, answer);
        (opened.refusal, opened.count)
    }

    fn admitted(&self, clauses: &[u64]) -> (u32, [u16; 13], u32) {
        let set = raw::admitted(clauses);
        (set.refusal, set.rows, set.count)
    }

    fn front<'a>(&self, answer: &'a [u16], count: usize) -> &'a [u16] {
        finder::front(answer, count)
    }

    fn outline_area(&self, words: &[u32]) -> (u32, i64) {
        let area = raw::outline_area(words);
        (area.refusal, area.twice_area)
    }

    fn outline_point(&self, words: &[u32], x: u32, y: u32) -> (u32, u32) {
        let located = raw::outline_point(words, x, y);
        (located.refusal, located.place)
    }

    fn tile_shares(&self, piece: model::Rect, reference: model::Rect) -> Shares {
        let shares = raw::tile_shares(rect(piece), rect(reference));
        (
            shares.refusal,
            shares.areas,
            shares.thousandths,
            shares.remainders,
        )
    }

    fn turned_rect(&self, before: model::Rect) -> model::Rect {
        back(raw::turned_rect(rect(before)))
    }

    fn turned_clause(&self, clause: u64) -> u64 {
        raw::turned_clause(clause)
    }

    fn nearest_piece(&self, table: &[u32], x: u32, y: u32, allowance: u32) -> Nearest {
        let nearest = raw::nearest_piece(table, x, y, allowance);
        let piece = match (nearest.found, nearest.number, nearest.distance) {
            (0, 0, 0) => None,
            (1, number, distance) => Some((number, distance)),
            _ => panic!("an absent piece that is not zero, or neither: {nearest:?}"),
        };
        let left = match (nearest.left, nearest.left_distance) {
            (0, 0) => None,
            (1, distance) => Some(distance),
            _ => panic!("an absent page that is not zero, or neither: {nearest:?}"),
        };
        (nearest.refusal, piece, nearest.opened, left)
    }
}

fn run(suite: &str) {
    let mut compared = Compared::new(&Finder);
    if let Err(difference) = suites::run(suite, &mut compared) {
        panic!("{difference:?}");
    }
    println!("{suite}: {} calls compared", compared.calls);
    println!("{}", suites::seeds());
}

macro_rules! suites {
    ($($test:ident $name:literal;)*) => {
        $(
            #[test]
            fn $test() {
                run($name);
            }
        )*

        /// Every suite stands above.
        #[test]
        fn no_suite_is_forgotten() {
            let here = [$($name),*];
            assert!(suites::SUITES.iter().all(|suite| here.contains(&suite.0)));
        }
    };
}

suites! {
    clauses "clauses";
    front "front";
    outlines "outlines";
    damaged_tables "damaged tables";
    tiles "tiles";
    turning "turning";
    configurations "configurations";
    lengths "lengths";
    answers "answers";
    refusals "refusals";
    turned_lays "turned lays";
    nearest "nearest";
    samples "samples";
    placed_tables "placed tables";
    built_tables "built tables";
    one_word_changed "one word changed";
    random_words "random words";
}
