//! Copies of the model with one fault each.
//!
//! A comparison that finds no difference says little if it could not find one.
//! So each of the slips in `list.rs` is put into a copy of the model, and the
//! suites of `compare` must notice every one.

#![forbid(unsafe_code)]

use compare::Calls;
use model::nearest::Nearest;
use model::tiles::Shares;
use model::Rect;

/// The calls of a copy.
macro_rules! calls {
    ($copy:ident) => {{
        struct Faulty;

        fn rect(rect: Rect) -> $copy::rectangles::Rect {
            $copy::rectangles::Rect::new(rect.x1, rect.y1, rect.x2, rect.y2)
        }

        fn back(rect: $copy::rectangles::Rect) -> Rect {
            Rect::new(rect.x1, rect.y1, rect.x2, rect.y2)
        }

        impl Calls for Faulty {
            fn empty(&self, table: &mut [u32]) -> u32 {
                $copy::pages::empty(table)
            }

            fn check(&self, table: &[u32]) -> (u32, u32) {
                $copy::soundness::check(table)
            }

            fn place(&self, table: &mut [u32], number: u32, at: Rect) -> u32 {
                $copy::placing::place(table, number, rect(at))
            }

            fn query(
                &self,
                table: &[u32],
                reference: Rect,
                clauses: &[u64],
                answer: &mut [u16],
            ) -> (u32, u32, u32) {
                $copy::queries::query(table, rect(reference), clauses, answer)
            }

            fn opened_pages(
                &self,
                table: &[u32],
                reference: Rect,
                clauses: &[u64],
                answer: &mut [u16],
            ) -> (u32, u32) {
                $copy::queries::opened_pages(table, rect(reference), clauses, answer)
            }

            fn admitted(&self, clauses: &[u64]) -> (u32, [u16; 13], u32) {
                $copy::clauses::admitted(clauses)
            }

            fn front<'a>(&self, answer: &'a [u16], count: usize) -> &'a [u16] {
                $copy::queries::front(answer, count)
            }

            fn outline_area(&self, words: &[u32]) -> (u32, i64) {
                $copy::outlines::outline_area(words)
            }

            fn outline_point(&self, words: &[u32], x: u32, y: u32) -> (u32, u32) {
                $copy::outlines::outline_point(words, x, y)
            }

            fn tile_shares(&self, piece: Rect, reference: Rect) -> Shares {
                $copy::tiles::tile_shares(rect(piece), rect(reference))
            }

            fn turned_rect(&self, before: Rect) -> Rect {
                back($copy::turning::turned_rect(rect(before)))
            }

            fn turned_clause(&self, clause: u64) -> u64 {
                $copy::turning::turned_clause(clause)
            }

            fn nearest_piece(&self, table: &[u32], x: u32, y: u32, allowance: u32) -> Nearest {
                $copy::nearest::nearest_piece(table, x, y, allowance)
            }
        }

        ($copy::NAME, Box::new(Faulty) as Box<dyn Calls>)
    }};
}

/// A list of all copies.
macro_rules! every {
    ($($copy:ident),* $(,)?) => {
        /// The faulty models, each with the name of its fault.
        pub fn all() -> Vec<(&'static str, Box<dyn Calls>)> {
            vec![$(calls!($copy)),*]
        }
    };
}

include!(concat!(env!("OUT_DIR"), "/modules.rs"));
