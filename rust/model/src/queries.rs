//! Queries: the listing, the opened pages and the front part.

use super::clauses::{self, holds, rows, Rows};
use super::codes::configuration;
use super::inside::opens;
use super::pages::{entries, is_leaf, page_count, piece_count, root};
use super::rectangles::Rect;
use super::refusals::{ACCEPTED, ANSWER_TOO_SHORT, RECTANGLE_NOT_VALID};
use super::soundness;

/// The query call: "writes the listing of demand 2 at the start of a slice of
/// 16-bit words, leaves the rest, and returns the number of hits and of opened
/// pages".
pub fn query(
    table: &[u32],
    reference: Rect,
    clauses: &[u64],
    answer: &mut [u16],
) -> (u32, u32, u32) {
    match refusal(table, reference, clauses, answer, piece_count) {
        ACCEPTED => query_sound(table, reference, clauses, answer),
        refusal => (refusal, 0, 0),
    }
}

/// The opened-pages call: "lists those page numbers, each one time, in a slice
/// of 16-bit words, leaves the words after them, and returns their count.
/// Their order is free": here a page stands before its children.
pub fn opened_pages(
    table: &[u32],
    reference: Rect,
    clauses: &[u64],
    answer: &mut [u16],
) -> (u32, u32) {
    match refusal(table, reference, clauses, answer, page_count) {
        ACCEPTED => {
            let walk = walk(table, reference, &rows(clauses));
            (ACCEPTED, write(&walk.opened, answer))
        }
        refusal => (refusal, 0),
    }
}

/// "query and opened pages 1, 6, 2, 4, 5, 8". `needed` reads how many answer
/// words a sound table asks for: "8 answer slice shorter than the piece count
/// (query) or than k (opened pages)".
fn refusal(
    table: &[u32],
    reference: Rect,
    clauses: &[u64],
    answer: &[u16],
    needed: fn(&[u32]) -> u32,
) -> u32 {
    let of_table = soundness::refusal(table);
    if of_table != ACCEPTED {
        return of_table;
    }
    if !reference.is_valid() {
        return RECTANGLE_NOT_VALID;
    }
    let of_clauses = clauses::refusal(clauses);
    if of_clauses != ACCEPTED {
        return of_clauses;
    }
    if answer.len() < needed(table) as usize {
        return ANSWER_TOO_SHORT;
    }
    ACCEPTED
}

/// A query that nothing refuses, on a sound table: it "lists exactly the
/// pieces whose rectangle stands to the reference in a configuration that the
/// wish admits, each one time, in rising number".
pub fn query_sound(
    table: &[u32],
    reference: Rect,
    clauses: &[u64],
    answer: &mut [u16],
) -> (u32, u32, u32) {
    let mut walk = walk(table, reference, &rows(clauses));
    walk.hits.sort_unstable();
    let hits = write(&walk.hits, answer);
    (ACCEPTED, hits, walk.opened.len() as u32)
}

/// Writes the numbers at the start of the answer and returns how many.
fn write(numbers: &[u32], answer: &mut [u16]) -> u32 {
    for (word, &number) in answer.iter_mut().zip(numbers) {
        *word = number as u16;
    }
    numbers.len() as u32
}

/// What a walk over the pages meets, in the order met.
#[derive(Debug, Default)]
pub struct Walk {
    pub hits: Vec<u32>,
    pub opened: Vec<u32>,
}

/// "The root is always opened, also when empty. Otherwise the walk goes from a
/// page to its children one level lower, by the rule of demand 2."
pub fn walk(table: &[u32], reference: Rect, rows: &Rows) -> Walk {
    let mut walk = Walk::default();
    open(table, root(table), reference, rows, &mut walk);
    walk
}

/// "a page under an opened page is opened exactly when some rectangle within
/// its own, with corners on quarter units, could stand in such a
/// configuration"
fn open(table: &[u32], page: u32, reference: Rect, rows: &Rows, walk: &mut Walk) {
    walk.opened.push(page);
    for entry in entries(table, page) {
        if is_leaf(table, page) {
            let (i, j) = configuration(entry.rect, reference);
            if holds(rows, i, j) {
                walk.hits.push(entry.r);
            }
        } else if opens(rows, entry.rect, reference) {
            open(table, entry.r, reference, rows, walk);
        }
    }
}

/// The front call: "hands back the front part of the caller's answer slice, as
/// many words as the given count; a count above the length gives the empty
/// part, and it refuses nothing".
pub fn front(answer: &[u16], count: usize) -> &[u16] {
    answer.get(..count).unwrap_or(&answer[..0])
}

#[cfg(test)]
mod tests {
    use super::*;

    #[test]
    fn front_parts() {
        let answer = [3, 5, 8];
        assert_eq!(front(&answer, 0), []);
        assert_eq!(front(&answer, 2), [3, 5]);
        assert_eq!(front(&answer, 3), [3, 5, 8]);
        assert_eq!(front(&answer, 4), []);
        assert_eq!(front(&answer, usize::MAX), []);
        assert_eq!(front(&[], 0), []);
    }
}
