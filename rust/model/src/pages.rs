//! The page table as words: reading and writing its parts, and the empty call.

use super::rectangles::{bounds, Rect};
use super::refusals::{ACCEPTED, TABLE_TOO_SHORT};
use super::sizes::{
    ENTRIES, ENTRY_WORDS, FIRST_ENTRY_WORD, FIRST_PAGE_WORD, PAGE_WORDS, TABLE_WORDS,
};

/// An entry: "x1, y1, x2, y2, r. In a leaf r is a piece number, above it a
/// child's page number."
#[derive(Clone, Copy, Debug, PartialEq, Eq)]
pub struct Entry {
    pub rect: Rect,
    pub r: u32,
}

/// A page taken out of the table. While a piece is placed it may have nine
/// entries.
#[derive(Clone, Debug, PartialEq, Eq)]
pub struct Page {
    pub level: u32,
    pub entries: Vec<Entry>,
}

/// "Word 0 is the page count k"
pub fn page_count(table: &[u32]) -> u32 {
    table[0]
}

/// "word 1 the root's page number"
pub fn root(table: &[u32]) -> u32 {
    table[1]
}

/// "word 2 the piece count"
pub fn piece_count(table: &[u32]) -> u32 {
    table[2]
}

/// The numbers of the pages below k.
pub fn page_numbers(table: &[u32]) -> std::ops::Range<u32> {
    0..page_count(table)
}

/// "a page is the 42 words that begin at word 3 + 42 times its number"
pub fn first_word(page: u32) -> usize {
    FIRST_PAGE_WORD + PAGE_WORDS * page as usize
}

fn page_words(table: &[u32], page: u32) -> &[u32] {
    &table[first_word(page)..][..PAGE_WORDS]
}

/// "They are its level (leaf 0)"
pub fn level(table: &[u32], page: u32) -> u32 {
    page_words(table, page)[0]
}

/// "its entry count n"
pub fn entry_count(table: &[u32], page: u32) -> u32 {
    page_words(table, page)[1]
}

pub fn is_leaf(table: &[u32], page: u32) -> bool {
    level(table, page) == 0
}

/// The words of the entries from `from` on; `from` is at most 8.
pub fn words_of_entries_from(table: &[u32], page: u32, from: u32) -> &[u32] {
    &page_words(table, page)[FIRST_ENTRY_WORD + ENTRY_WORDS * from as usize..]
}

/// "then 8 entries of x1, y1, x2, y2, r": the first n of them; n is at most 8.
pub fn entries(table: &[u32], page: u32) -> impl Iterator<Item = Entry> + '_ {
    words_of_entries_from(table, page, 0)
        .chunks_exact(ENTRY_WORDS)
        .take(entry_count(table, page) as usize)
        .map(entry)
}

fn entry(words: &[u32]) -> Entry {
    Entry {
        rect: Rect::new(words[0], words[1], words[2], words[3]),
        r: words[4],
    }
}

/// "the bounding rectangle of its .. entries"
pub fn page_bounds(table: &[u32], page: u32) -> Option<Rect> {
    bounds(entries(table, page).map(|entry| entry.rect))
}

/// All entries of all leaves below k: the pieces.
pub fn pieces(table: &[u32]) -> impl Iterator<Item = Entry> + '_ {
    page_numbers(table)
        .filter(|&page| is_leaf(table, page))
        .flat_map(|page| entries(table, page))
}

pub fn read_page(table: &[u32], page: u32) -> Page {
    Page {
        level: level(table, page),
        entries: entries(table, page).collect(),
    }
}

/// Writes all 42 words of a page: "vacated words are zero".
pub fn write_page(table: &mut [u32], number: u32, level: u32, entries: &[Entry]) {
    assert!(entries.len() <= ENTRIES);
    let words = &mut table[first_word(number)..][..PAGE_WORDS];
    words.fill(0);
    words[0] = level;
    words[1] = entries.len() as u32;
    let places = words[FIRST_ENTRY_WORD..].chunks_exact_mut(ENTRY_WORDS);
    for (place, Entry { rect, r }) in places.zip(entries) {
        place.copy_from_slice(&[rect.x1, rect.y1, rect.x2, rect.y2, *r]);
    }
}

/// The empty call: "The empty table has k = 1, root 0, and zeros elsewhere."
/// "words after them are never touched".
pub fn empty(table: &mut [u32]) -> u32 {
    if table.len() < TABLE_WORDS {
        return TABLE_TOO_SHORT;
    }
    table[..TABLE_WORDS].fill(0);
    table[0] = 1;
    ACCEPTED
}

#[cfg(test)]
mod tests {
    use super::super::sizes::PAGES;
    use super::*;

    #[test]
    fn the_pages_fill_the_table() {
        assert_eq!(first_word(0), 3);
        assert_eq!(first_word(PAGES as u32), TABLE_WORDS);
        assert_eq!(FIRST_ENTRY_WORD + ENTRIES * ENTRY_WORDS, PAGE_WORDS);
    }

    #[test]
    fn empty_writes_the_table_and_nothing_after_it() {
        let mut slice = vec![7; TABLE_WORDS + 2];
        assert_eq!(empty(&mut slice), 0);
        assert_eq!(slice[0], 1);
        assert!(slice[1..TABLE_WORDS].iter().all(|&word| word == 0));
        assert_eq!(slice[TABLE_WORDS..], [7, 7]);
    }

    #[test]
    fn empty_refuses_a_short_slice() {
        let mut slice = vec![7; TABLE_WORDS - 1];
        assert_eq!(empty(&mut slice), 1);
        assert!(slice.iter().all(|&word| word == 7));
        assert_eq!(empty(&mut []), 1);
    }
}
