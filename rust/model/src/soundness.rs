//! "Sound means all of these", bullet by bullet, and the check call.
//!
//! A later bullet may lean on an earlier one: n is tested before entries are
//! read, and r before it is used as a page number. A table that breaks an
//! earlier one is not sound whatever the later ones would say.

use super::pages::{
    entries, entry_count, first_word, is_leaf, level, page_bounds, page_count, page_numbers,
    piece_count, pieces, root, words_of_entries_from, Entry,
};
use super::refusals::{ACCEPTED, TABLE_NOT_SOUND, TABLE_TOO_SHORT};
use super::sizes::{ENTRIES, LEAST_ENTRIES, PAGES, PIECES, TABLE_WORDS, TOP_LEVEL};

/// Whether the first 14,325 words of the slice, which has them, are sound.
pub fn sound(table: &[u32]) -> bool {
    counts_of_pages(table)
        && levels(table)
        && counts_of_entries(table)
        && children_exist(table)
        && children_one_level_below(table)
        && each_page_named_once(table)
        && bounds_exact(table)
        && pieces_valid(table)
        && pieces_distinct(table)
        && pieces_counted(table)
        && entries_from_n_zero(table)
        && pages_from_k_zero(table)
}

/// "k is 1 to 341 and the root is below k."
fn counts_of_pages(table: &[u32]) -> bool {
    let k = page_count(table);
    1 <= k && k <= PAGES as u32 && root(table) < k
}

/// "Levels are 0 to 4"
fn levels(table: &[u32]) -> bool {
    page_numbers(table).all(|page| level(table, page) <= TOP_LEVEL)
}

/// "n is 4 to 8. A root above level 0 may have 2 to 8, a leaf root 0 to 8."
fn counts_of_entries(table: &[u32]) -> bool {
    page_numbers(table).all(|page| {
        let least = match page == root(table) {
            false => LEAST_ENTRIES,
            true if is_leaf(table, page) => 0,
            true => 2,
        };
        let n = entry_count(table, page);
        least as u32 <= n && n <= ENTRIES as u32
    })
}

/// Each entry above the leaves, with the number of the page that it is in.
fn entries_above_the_leaves(table: &[u32]) -> impl Iterator<Item = (u32, Entry)> + '_ {
    page_numbers(table)
        .filter(|&page| !is_leaf(table, page))
        .flat_map(|page| entries(table, page).map(move |entry| (page, entry)))
}

/// "no r there reaches k"
fn children_exist(table: &[u32]) -> bool {
    entries_above_the_leaves(table).all(|(_, entry)| entry.r < page_count(table))
}

/// "a child is one level below its parent"
fn children_one_level_below(table: &[u32]) -> bool {
    entries_above_the_leaves(table)
        .all(|(page, entry)| level(table, entry.r) + 1 == level(table, page))
}

/// "Every page below k but the root is the r of exactly one entry above the
/// leaves; the root of none"
fn each_page_named_once(table: &[u32]) -> bool {
    let mut times_named = [0; PAGES];
    for (_, entry) in entries_above_the_leaves(table) {
        times_named[entry.r as usize] += 1;
    }
    page_numbers(table).all(|page| {
        let due = if page == root(table) { 0 } else { 1 };
        times_named[page as usize] == due
    })
}

/// "An entry above the leaves holds exactly the bounding rectangle of its
/// child's entries."
fn bounds_exact(table: &[u32]) -> bool {
    entries_above_the_leaves(table)
        .all(|(_, entry)| page_bounds(table, entry.r) == Some(entry.rect))
}

/// "Piece rectangles are valid, piece numbers are at most 1,023"
fn pieces_valid(table: &[u32]) -> bool {
    pieces(table).all(|piece| piece.rect.is_valid() && piece.r < PIECES as u32)
}

/// "and distinct"
fn pieces_distinct(table: &[u32]) -> bool {
    let mut met = [false; PIECES];
    pieces(table).all(|piece| !std::mem::replace(&mut met[piece.r as usize], true))
}

/// "and word 2 counts them"
fn pieces_counted(table: &[u32]) -> bool {
    pieces(table).count() == piece_count(table) as usize
}

/// "Words of entries from n on .. are zero."
fn entries_from_n_zero(table: &[u32]) -> bool {
    page_numbers(table).all(|page| {
        let n = entry_count(table, page);
        all_zero(words_of_entries_from(table, page, n))
    })
}

/// "Words .. of pages from k on, are zero."
fn pages_from_k_zero(table: &[u32]) -> bool {
    all_zero(&table[first_word(page_count(table))..TABLE_WORDS])
}

fn all_zero(words: &[u32]) -> bool {
    words.iter().all(|&word| word == 0)
}

/// Refusals 1 and 6, which stand first in every call on a table but empty.
pub fn refusal(table: &[u32]) -> u32 {
    if table.len() < TABLE_WORDS {
        TABLE_TOO_SHORT
    } else if !sound(table) {
        TABLE_NOT_SOUND
    } else {
        ACCEPTED
    }
}

/// The check call: "check 1, 6, and otherwise the piece count".
pub fn check(table: &[u32]) -> (u32, u32) {
    match refusal(table) {
        ACCEPTED => (ACCEPTED, piece_count(table)),
        refusal => (refusal, 0),
    }
}
