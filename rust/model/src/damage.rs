//! Tables that are not sound, each by one named fault.
//!
//! As far as it can be done, a fault breaks one bullet of "Sound means all of
//! these" and keeps the others: after a change to a piece the bounds above it
//! are made exact again, after a piece too many or too few it is counted. So a
//! check that forgets a bullet accepts one of these tables.

use crate::pages::{
    entries, entry_count, first_word, level, page_count, page_numbers, root, Entry, Page,
};
use crate::rectangles::Rect;
use crate::sizes::{EDGE, ENTRY_WORDS, FIRST_ENTRY_WORD, PAGE_WORDS, TABLE_WORDS};
use crate::tables::{samples, Draft};

/// A damaged table: a sample of `tables::samples`, or a hand-made table, with
/// one fault.
#[derive(Clone, Debug)]
pub struct Damaged {
    pub base: &'static str,
    pub fault: String,
    pub words: Vec<u32>,
}

impl Damaged {
    pub fn name(&self) -> String {
        format!("{}/{}", self.base, self.fault)
    }
}

/// All damaged tables, the same ones each time.
pub fn damaged() -> Vec<Damaged> {
    let mut list = Vec::new();
    for (base, sound) in samples() {
        match base {
            "nine" | "three-levels" | "full-341-pages" | "five-levels-least" => {
                list.extend(head_faults(base, &sound));
                list.extend(page_faults(base, &sound));
                list.extend(name_faults(base, &sound));
                list.extend(piece_faults(base, &sound));
                list.extend(zero_faults(base, &sound));
                list.extend(bounds_faults(base, &sound));
                list.extend(draft_faults(base, &sound));
            }
            "empty" | "leaf-root-5" | "leaf-root-8" => {
                list.extend(head_faults(base, &sound));
                list.extend(zero_faults(base, &sound));
                list.extend(draft_faults(base, &sound));
            }
            "twins" => list.extend(twin_faults(base, &sound)),
            _ => {}
        }
    }
    list.extend(hand_made());
    list
}

/// A copy of the table with one change.
fn altered(
    base: &'static str,
    fault: &str,
    sound: &[u32],
    change: impl FnOnce(&mut [u32]),
) -> Damaged {
    let mut words = sound.to_vec();
    change(&mut words);
    Damaged {
        base,
        fault: fault.to_string(),
        words,
    }
}

/// The place of a page's word: 0 its level, 1 its entry count n.
fn at(page: u32, word: usize) -> usize {
    first_word(page) + word
}

const LEVEL: usize = 0;
const N: usize = 1;

/// The place of an entry's word: 0 to 3 its rectangle, 4 its r.
fn in_entry(page: u32, place: u32, word: usize) -> usize {
    at(page, FIRST_ENTRY_WORD + ENTRY_WORDS * place as usize + word)
}

const R: usize = 4;

/// The first page of a level; the table has one.
fn page_at(table: &[u32], wanted: u32) -> u32 {
    page_numbers(table)
        .find(|&page| level(table, page) == wanted)
        .expect("a page at this level")
}

/// Faults of words 0 to 2.
fn head_faults(base: &'static str, sound: &[u32]) -> Vec<Damaged> {
    let (k, count) = (sound[0], sound[2]);
    let with = |fault, word: usize, value| altered(base, fault, sound, |t| t[word] = value);
    let mut list = vec![
        with("k-zero", 0, 0),
        with("k-one-less", 0, k - 1),
        with("k-one-more", 0, k + 1),
        with("k-342", 0, 342),
        with("k-max", 0, u32::MAX),
        with("k-wraps", 0, k + 0x8000_0000),
        with("root-at-k", 1, k),
        with("root-341", 1, 341),
        with("root-max", 1, u32::MAX),
        with("root-wraps", 1, sound[1] + 0x8000_0000),
        with("count-one-more", 2, count + 1),
        with("count-one-less", 2, count.wrapping_sub(1)),
        with("count-wraps", 2, count + 0x1_0000),
        with("count-max", 2, u32::MAX),
    ];
    if level(sound, root(sound)) > 0 {
        list.push(with("count-zero", 2, 0));
        list.push(with("root-a-leaf", 1, page_at(sound, 0)));
    }
    list
}

/// Faults of a page's level and entry count.
fn page_faults(base: &'static str, sound: &[u32]) -> Vec<Damaged> {
    let (leaf, above, root) = (page_at(sound, 0), page_at(sound, 1), root(sound));
    let last = page_count(sound) - 1;
    let with =
        |fault, page, word, value| altered(base, fault, sound, |t| t[at(page, word)] = value);
    vec![
        with("leaf-level-1", leaf, LEVEL, 1),
        with("leaf-level-5", leaf, LEVEL, 5),
        with("leaf-level-max", leaf, LEVEL, u32::MAX),
        with("above-level-0", above, LEVEL, 0),
        with("above-level-2", above, LEVEL, 2),
        with("root-level-0", root, LEVEL, 0),
        with("root-level-one-more", root, LEVEL, level(sound, root) + 1),
        with("root-level-5", root, LEVEL, 5),
        with(
            "root-level-wraps",
            root,
            LEVEL,
            level(sound, root) + 0x1_0000,
        ),
        with("leaf-n-0", leaf, N, 0),
        with("leaf-n-one-less", leaf, N, entry_count(sound, leaf) - 1),
        with("leaf-n-one-more", leaf, N, entry_count(sound, leaf) + 1),
        with("leaf-n-9", leaf, N, 9),
        with("leaf-n-max", leaf, N, u32::MAX),
        // Five times this is 2^32 - 1 + 5 n: a small number, if it wraps.
        with(
            "leaf-n-wraps",
            leaf,
            N,
            0x3333_3333 + entry_count(sound, leaf),
        ),
        with("above-n-9", above, N, 9),
        with("above-n-max", above, N, u32::MAX),
        with("root-n-9", root, N, 9),
        with("root-n-max", root, N, u32::MAX),
        with("last-page-n-9", last, N, 9),
        with("last-page-n-max", last, N, u32::MAX),
    ]
}

/// Faults of an r above the leaves.
fn name_faults(base: &'static str, sound: &[u32]) -> Vec<Damaged> {
    let (above, root, k) = (page_at(sound, 1), root(sound), page_count(sound));
    let last = entry_count(sound, root) - 1;
    let child = entries(sound, above).next().expect("an entry").r;
    let with =
        |fault, page, place, r| altered(base, fault, sound, |t| t[in_entry(page, place, R)] = r);
    vec![
        with("r-at-k", above, 0, k),
        with("r-341", above, 0, 341),
        with("r-max", above, 0, u32::MAX),
        // 42 times 2^31 is 0 mod 2^32: the same words, if it wraps.
        with("r-wraps", above, 0, child + 0x8000_0000),
        with("r-beyond-16-bits", above, 0, child + 0x1_0000),
        with("r-the-page-itself", above, 0, above),
        with("r-the-root", above, 0, root),
        with("r-another-page", above, 0, other_leaf(sound, child)),
        with("root-r-at-k", root, last, k),
        with("root-r-max", root, last, u32::MAX),
        with("root-r-the-root", root, last, root),
    ]
}

fn other_leaf(table: &[u32], leaf: u32) -> u32 {
    page_numbers(table)
        .find(|&page| page != leaf && level(table, page) == 0)
        .expect("two leaves")
}

/// Faults of a piece's number. No bounds change.
fn piece_faults(base: &'static str, sound: &[u32]) -> Vec<Damaged> {
    let leaf = page_at(sound, 0);
    let mine: Vec<u32> = entries(sound, leaf).map(|entry| entry.r).collect();
    let other = other_leaf(sound, leaf);
    let theirs = entries(sound, other).next().expect("an entry").r;
    let with = |fault, r| altered(base, fault, sound, |t| t[in_entry(leaf, 0, R)] = r);
    vec![
        with("number-1024", 1024),
        with("number-max", u32::MAX),
        with("number-beyond-10-bits", mine[0] + 0x400),
        with("number-beyond-16-bits", mine[0] + 0x1_0000),
        with("number-twice-in-a-leaf", mine[1]),
        with("number-twice-in-two-leaves", theirs),
    ]
}

/// One word that should be zero and is not.
fn zero_faults(base: &'static str, sound: &[u32]) -> Vec<Damaged> {
    let with = |fault, word: usize, value| altered(base, fault, sound, |t| t[word] = value);
    let mut list = Vec::new();
    let mut after_entries = |page, first, last, r| {
        let n = entry_count(sound, page);
        if n < 8 {
            list.push(with(first, in_entry(page, n, 0), 1));
            list.push(with(r, in_entry(page, n, R), 0x8000_0000));
            list.push(with(last, at(page, PAGE_WORDS - 1), u32::MAX));
        }
    };
    let (leaf, root) = (page_at(sound, 0), root(sound));
    after_entries(
        leaf,
        "leaf-first-word-after-entries",
        "leaf-last-word",
        "leaf-r-after-entries",
    );
    if leaf != root {
        after_entries(
            root,
            "root-first-word-after-entries",
            "root-last-word",
            "root-r-after-entries",
        );
    }
    let k = page_count(sound);
    if k < 341 {
        list.push(with("first-word-after-pages", at(k, LEVEL), 1));
        list.push(with("second-word-after-pages", at(k, N), 1));
        list.push(with("last-word-of-page-k", at(k, PAGE_WORDS - 1), 1));
        list.push(with("first-word-of-last-page", at(340, LEVEL), 2));
        list.push(with("last-word-of-table", TABLE_WORDS - 1, 0x8000_0000));
        let middle = (at(k, 0) + TABLE_WORDS) / 2;
        list.push(with("middle-word-after-pages", middle, 1));
    }
    list
}

/// Inexact bounds: each of the four words one too small and one too large, in
/// a page above the leaves and in the root.
fn bounds_faults(base: &'static str, sound: &[u32]) -> Vec<Damaged> {
    let mut list = Vec::new();
    for (page, whose) in [(page_at(sound, 1), "bound"), (root(sound), "root-bound")] {
        for (word, edge) in ["x1", "y1", "x2", "y2"].iter().enumerate() {
            let place = in_entry(page, 1, word);
            let less = sound[place].wrapping_sub(1);
            let more = sound[place] + 1;
            for (how, value) in [("less", less), ("more", more)] {
                let fault = format!("{whose}-{edge}-{how}");
                list.push(altered(base, &fault, sound, |t| t[place] = value));
            }
        }
    }
    list
}

/// Faults of a table taken apart: all else is made to fit again.
fn draft_faults(base: &'static str, sound: &[u32]) -> Vec<Damaged> {
    let draft = Draft::of(sound);
    let mut list = Vec::new();
    let leaf = page_at(sound, 0) as usize;
    let mut with_rect = |fault, change: fn(&mut Rect)| {
        let mut draft = draft.clone();
        if let Some(piece) = draft.pages[leaf].entries.first_mut() {
            change(&mut piece.rect);
            list.push(fitted(base, fault, draft));
        }
    };
    with_rect("piece-x1-is-x2", |rect| rect.x1 = rect.x2);
    with_rect("piece-y1-is-y2", |rect| rect.y1 = rect.y2);
    with_rect("piece-x1-above-x2", |rect| rect.x1 = rect.x2 + 1);
    with_rect("piece-y1-above-y2", |rect| rect.y1 = rect.y2 + 1);
    with_rect("piece-x2-beyond-edge", |rect| rect.x2 = EDGE + 1);
    with_rect("piece-y2-beyond-edge", |rect| rect.y2 = EDGE + 1);
    with_rect("piece-x2-max", |rect| rect.x2 = u32::MAX);
    with_rect("piece-all-beyond-edge", |rect| {
        *rect = Rect::new(EDGE + 1, EDGE + 1, EDGE + 2, EDGE + 2)
    });
    if draft.pages[leaf].entries.len() == 4 {
        let mut draft = draft.clone();
        draft.pages[leaf].entries.pop();
        list.push(fitted(base, "leaf-with-3-entries", draft));
    }
    list
}

/// The draft with exact bounds and every piece counted.
fn fitted(base: &'static str, fault: &str, mut draft: Draft) -> Damaged {
    draft.refit();
    draft.recount();
    Damaged {
        base,
        fault: fault.to_string(),
        words: draft.words(),
    }
}

/// All pieces of this table have the same rectangle, so a page may be named in
/// another's stead without any bounds becoming inexact.
fn twin_faults(base: &'static str, sound: &[u32]) -> Vec<Damaged> {
    let above = page_at(sound, 1);
    let children: Vec<u32> = entries(sound, above).map(|entry| entry.r).collect();
    let elsewhere = page_numbers(sound)
        .find(|&page| level(sound, page) == 0 && !children.contains(&page))
        .expect("a leaf under another page");
    let r = in_entry(above, 0, R);
    let level_2 = root(sound);
    vec![
        altered(base, "page-named-twice-in-a-page", sound, |t| {
            t[r] = children[1]
        }),
        altered(base, "page-named-twice-in-two-pages", sound, |t| {
            t[r] = elsewhere
        }),
        altered(base, "leaf-named-two-levels-above", sound, |t| {
            t[in_entry(level_2, 0, R)] = children[0]
        }),
        altered(base, "root-named", sound, |t| t[r] = level_2),
        altered(base, "root-a-child", sound, |t| t[1] = above),
    ]
}

/// A leaf with pieces `first` to `first + 3`, side by side.
fn leaf(first: u32) -> Page {
    let entries = (first..first + 4).map(|r| Entry {
        rect: Rect::new(10 * r + 1, 7, 10 * r + 6, 12),
        r,
    });
    Page {
        level: 0,
        entries: entries.collect(),
    }
}

/// A page above the leaves; its bounds are fitted later.
fn above(level: u32, children: &[u32]) -> Page {
    let rect = Rect::new(0, 0, 0, 0);
    let entries = children.iter().map(|&r| Entry { rect, r }).collect();
    Page { level, entries }
}

/// Small tables made by hand. Each has exact bounds.
fn hand_made() -> Vec<Damaged> {
    let made = |fault, root, pages: &[Page]| {
        let pages = pages.to_vec();
        let pieces = 0;
        fitted(
            "hand-made",
            fault,
            Draft {
                root,
                pieces,
                pages,
            },
        )
    };
    let counted = |mut damaged: Damaged, fault: &str, pieces| {
        damaged.words[2] = pieces;
        damaged.fault = fault.to_string();
        damaged
    };
    let twice = made(
        "page-named-twice",
        2,
        &[leaf(0), leaf(4), above(1, &[0, 1, 0])],
    );
    let never = made(
        "page-never-named",
        3,
        &[leaf(0), leaf(4), leaf(8), above(1, &[0, 1])],
    );
    let island = made(
        "island-beside-leaf-root",
        0,
        &[leaf(0), leaf(4), leaf(8), above(1, &[1, 2])],
    );
    let lower = made(
        "root-below-the-top",
        4,
        &[
            leaf(0),
            leaf(4),
            leaf(8),
            leaf(12),
            above(1, &[0, 1, 2, 3]),
            leaf(16),
            leaf(20),
            leaf(24),
            leaf(28),
            above(1, &[5, 6, 7, 8]),
            above(2, &[4, 9]),
        ],
    );
    vec![
        counted(twice.clone(), "page-named-twice-counted-twice", 12),
        twice,
        counted(never.clone(), "page-never-named-not-counted", 8),
        never,
        counted(island.clone(), "island-beside-leaf-root-not-counted", 4),
        island,
        counted(lower.clone(), "root-below-the-top-not-counted", 16),
        lower,
        made("second-leaf-beside-leaf-root", 0, &[leaf(0), leaf(4)]),
        made("second-empty-leaf", 0, &[leaf(0), above(0, &[])]),
        made(
            "island-of-empty-page",
            2,
            &[leaf(0), leaf(4), above(1, &[0, 1]), above(1, &[])],
        ),
        made("root-level-1-with-0-entries", 0, &[above(1, &[])]),
        made("root-level-4-with-0-entries", 0, &[above(4, &[])]),
        made("root-level-5-with-0-entries", 0, &[above(5, &[])]),
        made("root-level-1-with-1-entry", 1, &[leaf(0), above(1, &[0])]),
        made(
            "root-level-2-with-1-entry",
            5,
            &[
                leaf(0),
                leaf(4),
                leaf(8),
                leaf(12),
                above(1, &[0, 1, 2, 3]),
                above(2, &[4]),
            ],
        ),
        made(
            "page-with-3-entries-above-leaves",
            9,
            &[
                leaf(0),
                leaf(4),
                leaf(8),
                above(1, &[0, 1, 2]),
                leaf(12),
                leaf(16),
                leaf(20),
                leaf(24),
                above(1, &[4, 5, 6, 7]),
                above(2, &[3, 8]),
            ],
        ),
        made(
            "page-with-1-entry-above-leaves",
            7,
            &[
                leaf(0),
                above(1, &[0]),
                leaf(12),
                leaf(16),
                leaf(20),
                leaf(24),
                above(1, &[2, 3, 4, 5]),
                above(2, &[1, 6]),
            ],
        ),
        made(
            "child-two-levels-below",
            6,
            &[
                leaf(0),
                leaf(4),
                leaf(8),
                leaf(12),
                above(1, &[0, 1, 2, 3]),
                leaf(16),
                above(2, &[4, 5]),
            ],
        ),
        made(
            "child-of-the-same-level",
            7,
            &[
                leaf(0),
                leaf(4),
                leaf(8),
                leaf(12),
                above(1, &[0, 1, 2, 3]),
                leaf(16),
                leaf(20),
                above(1, &[4, 5, 6]),
            ],
        ),
        made(
            "all-one-level-too-high",
            2,
            &[leaf(0), leaf(4), above(2, &[0, 1])],
        ),
        made(
            "root-names-itself",
            2,
            &[leaf(0), leaf(4), above(1, &[0, 1, 2])],
        ),
        made(
            "two-pages-name-each-other",
            4,
            &[
                leaf(0),
                leaf(4),
                leaf(8),
                above(1, &[0, 1, 2, 4]),
                above(1, &[0, 1, 2, 3]),
            ],
        ),
        made(
            "five-levels-of-one-entry",
            5,
            &[
                leaf(0),
                above(1, &[0]),
                above(2, &[1]),
                above(3, &[2]),
                above(4, &[3]),
                above(5, &[4]),
            ],
        ),
    ]
}

#[cfg(test)]
mod tests {
    use super::*;
    use crate::soundness::check;
    use std::collections::HashSet;

    #[test]
    fn no_damaged_table_is_sound() {
        for damaged in damaged() {
            assert_eq!(check(&damaged.words), (6, 0), "{}", damaged.name());
        }
    }

    #[test]
    fn names_differ() {
        let names: Vec<String> = damaged().iter().map(Damaged::name).collect();
        let different: HashSet<&String> = names.iter().collect();
        assert_eq!(names.len(), different.len());
        println!("{} damaged tables", names.len());
    }

    #[test]
    fn hand_made_pages_are_sound_when_nothing_is_wrong() {
        let pages = vec![leaf(0), leaf(4), above(1, &[0, 1])];
        let draft = Draft {
            root: 2,
            pieces: 0,
            pages,
        };
        assert_eq!(check(&fitted("hand-made", "none", draft).words), (0, 8));
    }
}
