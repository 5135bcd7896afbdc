//! Placing a piece.

use super::pages::{
    page_bounds, page_count, piece_count, pieces, read_page, root, write_page, Entry,
};
use super::rectangles::{bounds, Rect};
use super::refusals::{ACCEPTED, ALREADY_STANDING, NUMBER_TOO_LARGE, RECTANGLE_NOT_VALID};
use super::sizes::{ENTRIES, LEAST_ENTRIES, PIECES};
use super::soundness;

/// The place call: "place 1, 6, 2, 3, 7".
pub fn place(table: &mut [u32], number: u32, rect: Rect) -> u32 {
    let refusal = refusal(table, number, rect);
    if refusal == ACCEPTED {
        place_sound(table, number, rect);
    }
    refusal
}

fn refusal(table: &[u32], number: u32, rect: Rect) -> u32 {
    let of_table = soundness::refusal(table);
    if of_table != ACCEPTED {
        of_table
    } else if !rect.is_valid() {
        RECTANGLE_NOT_VALID
    } else if number >= PIECES as u32 {
        NUMBER_TOO_LARGE
    } else if stands(table, number) {
        ALREADY_STANDING
    } else {
        ACCEPTED
    }
}

/// "it is the r of one of the n entries of a leaf in the table it works on"
pub fn stands(table: &[u32], number: u32) -> bool {
    pieces(table).any(|piece| piece.r == number)
}

/// Places a piece that nothing refuses in a sound table.
pub fn place_sound(table: &mut [u32], number: u32, rect: Rect) {
    let old_root = root(table);
    let piece = Entry { rect, r: number };
    if let Some(new_page) = place_below(table, old_root, piece) {
        make_root(table, old_root, new_page);
    }
    table[2] = piece_count(table) + 1;
}

/// Places the piece in the page or below it. When the page is split, returns
/// the number of the page newly made beside it.
fn place_below(table: &mut [u32], number: u32, piece: Entry) -> Option<u32> {
    let mut page = read_page(table, number);
    if page.level == 0 {
        // "In the leaf, append."
        page.entries.push(piece);
    } else {
        let place = chosen(&page.entries, piece.rect);
        let child = page.entries[place].r;
        let new_child = place_below(table, child, piece);
        // "The parent's entry for the old page is set to its bounds" and
        // "Bounds along the path are made exact."
        page.entries[place] = entry_for(table, child);
        // "and an entry for the new one is appended"
        page.entries
            .extend(new_child.map(|made| entry_for(table, made)));
    }
    store(table, number, page.level, page.entries)
}

/// "Above the leaves, go to the entry whose area grows least when widened to
/// the new rectangle; ties go to the smaller present area, then to the lower
/// place in the page."
fn chosen(entries: &[Entry], new: Rect) -> usize {
    let merit = |place: &usize| {
        let present = entries[*place].rect;
        (present.growth(new), present.area(), *place)
    };
    (0..entries.len())
        .min_by_key(merit)
        .expect("a page above the leaves has entries")
}

/// The entry that names a page, with its exact bounds.
fn entry_for(table: &[u32], page: u32) -> Entry {
    let rect = page_bounds(table, page).expect("the page has entries");
    Entry { rect, r: page }
}

/// Writes the page. "A page with nine entries (the old eight in place, the new
/// one last) is split": then the number of the new page is returned.
fn store(table: &mut [u32], number: u32, level: u32, entries: Vec<Entry>) -> Option<u32> {
    if entries.len() <= ENTRIES {
        write_page(table, number, level, &entries);
        return None;
    }
    let ordered = ordered(entries);
    let (stay, go) = ordered.split_at(LEAST_ENTRIES);
    // "The first four stay in the old page, in the order found"
    write_page(table, number, level, stay);
    // "and the other five go, in that order, to page k, and k rises by one"
    Some(make_page(table, level, go))
}

/// "If the bounding rectangle of the nine is at least as wide as high, order
/// them by x1, otherwise by y1; equal keys keep their order."
fn ordered(mut nine: Vec<Entry>) -> Vec<Entry> {
    let whole = bounds(nine.iter().map(|entry| entry.rect)).expect("nine entries");
    if whole.width() >= whole.height() {
        nine.sort_by_key(|entry| entry.rect.x1);
    } else {
        nine.sort_by_key(|entry| entry.rect.y1);
    }
    nine
}

/// Writes page k and raises k by one.
fn make_page(table: &mut [u32], level: u32, entries: &[Entry]) -> u32 {
    let k = page_count(table);
    write_page(table, k, level, entries);
    table[0] = k + 1;
    k
}

/// "A split root gets a new root, made last, one level higher, with the old
/// page's entry first."
fn make_root(table: &mut [u32], old_page: u32, new_page: u32) {
    let level = read_page(table, old_page).level + 1;
    let entries = [entry_for(table, old_page), entry_for(table, new_page)];
    table[1] = make_page(table, level, &entries);
}
