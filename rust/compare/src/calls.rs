//! The calls of the papers, as anything that offers them.

use model::nearest::Nearest;
use model::tiles::Shares;
use model::Rect;

/// The calls. Refusals are numbers, zero for accepted; pairs and triples stand
/// in the order of the paper.
pub trait Calls {
    /// Returns the refusal.
    fn empty(&self, table: &mut [u32]) -> u32;

    /// Returns the refusal and the piece count.
    fn check(&self, table: &[u32]) -> (u32, u32);

    /// Returns the refusal.
    fn place(&self, table: &mut [u32], number: u32, rect: Rect) -> u32;

    /// Returns the refusal, the hits and the opened pages.
    fn query(
        &self,
        table: &[u32],
        reference: Rect,
        clauses: &[u64],
        answer: &mut [u16],
    ) -> (u32, u32, u32);

    /// Returns the refusal and the count.
    fn opened_pages(
        &self,
        table: &[u32],
        reference: Rect,
        clauses: &[u64],
        answer: &mut [u16],
    ) -> (u32, u32);

    /// Returns the refusal, the thirteen row sets and the count.
    fn admitted(&self, clauses: &[u64]) -> (u32, [u16; 13], u32);

    /// Returns the front part.
    fn front<'a>(&self, answer: &'a [u16], count: usize) -> &'a [u16];

    /// Returns the refusal and twice the area.
    fn outline_area(&self, words: &[u32]) -> (u32, i64);

    /// Returns the refusal and the place.
    fn outline_point(&self, words: &[u32], x: u32, y: u32) -> (u32, u32);

    /// Returns the refusal, the nine areas, quotients and remainders.
    fn tile_shares(&self, piece: Rect, reference: Rect) -> Shares;

    /// Returns the rectangle after a quarter turn.
    fn turned_rect(&self, rect: Rect) -> Rect;

    /// Returns the clause after a quarter turn.
    fn turned_clause(&self, clause: u64) -> u64;

    /// Returns the refusal, the piece's number and squared distance, the opened
    /// pages and the squared distance of what is left.
    fn nearest_piece(&self, table: &[u32], x: u32, y: u32, allowance: u32) -> Nearest;
}

/// The model itself.
pub struct Model;

impl Calls for Model {
    fn empty(&self, table: &mut [u32]) -> u32 {
        model::empty(table)
    }

    fn check(&self, table: &[u32]) -> (u32, u32) {
        model::check(table)
    }

    fn place(&self, table: &mut [u32], number: u32, rect: Rect) -> u32 {
        model::place(table, number, rect)
    }

    fn query(
        &self,
        table: &[u32],
        reference: Rect,
        clauses: &[u64],
        answer: &mut [u16],
    ) -> (u32, u32, u32) {
        model::query(table, reference, clauses, answer)
    }

    fn opened_pages(
        &self,
        table: &[u32],
        reference: Rect,
        clauses: &[u64],
        answer: &mut [u16],
    ) -> (u32, u32) {
        model::opened_pages(table, reference, clauses, answer)
    }

    fn admitted(&self, clauses: &[u64]) -> (u32, [u16; 13], u32) {
        model::admitted(clauses)
    }

    fn front<'a>(&self, answer: &'a [u16], count: usize) -> &'a [u16] {
        model::front(answer, count)
    }

    fn outline_area(&self, words: &[u32]) -> (u32, i64) {
        model::outline_area(words)
    }

    fn outline_point(&self, words: &[u32], x: u32, y: u32) -> (u32, u32) {
        model::outline_point(words, x, y)
    }

    fn tile_shares(&self, piece: Rect, reference: Rect) -> Shares {
        model::tile_shares(piece, reference)
    }

    fn turned_rect(&self, rect: Rect) -> Rect {
        model::turned_rect(rect)
    }

    fn turned_clause(&self, clause: u64) -> u64 {
        model::turned_clause(clause)
    }

    fn nearest_piece(&self, table: &[u32], x: u32, y: u32, allowance: u32) -> Nearest {
        model::nearest_piece(table, x, y, allowance)
    }
}
