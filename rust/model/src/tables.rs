//! Tables to try the calls on: sound ones that place calls make, and sound
//! ones that they never make. And rectangles of many kinds.

use crate::pages::{empty, pieces as pieces_of, read_page, write_page, Entry, Page};
use crate::pages::{page_numbers, piece_count, root};
use crate::placing::place;
use crate::random::Random;
use crate::rectangles::{bounds, Rect};
use crate::sizes::{EDGE, ENTRIES, LEAST_ENTRIES, PIECES, TABLE_WORDS, TOP_LEVEL};

/// A piece: its number and its rectangle.
pub type Piece = (u32, Rect);

/// A table taken apart, to be altered and put together again.
#[derive(Clone, Debug)]
pub struct Draft {
    pub root: u32,
    pub pieces: u32,
    pub pages: Vec<Page>,
}

impl Draft {
    /// Takes a sound table apart.
    pub fn of(table: &[u32]) -> Draft {
        Draft {
            root: root(table),
            pieces: piece_count(table),
            pages: page_numbers(table)
                .map(|page| read_page(table, page))
                .collect(),
        }
    }

    /// The 14,325 words, whether they are sound or not.
    pub fn words(&self) -> Vec<u32> {
        let mut table = vec![0; TABLE_WORDS];
        table[0] = self.pages.len() as u32;
        table[1] = self.root;
        table[2] = self.pieces;
        for (number, page) in self.pages.iter().enumerate() {
            write_page(&mut table, number as u32, page.level, &page.entries);
        }
        table
    }

    /// The bounds of a page; of a page without entries, no valid rectangle.
    pub fn bounds(&self, page: u32) -> Rect {
        let entries = &self.pages[page as usize].entries;
        bounds(entries.iter().map(|entry| entry.rect)).unwrap_or(Rect::new(0, 0, 0, 0))
    }

    /// The entry that names a page, with its exact bounds.
    pub fn entry_for(&self, page: u32) -> Entry {
        let rect = self.bounds(page);
        Entry { rect, r: page }
    }

    /// Makes the bounds in all entries above the leaves exact, from below. A
    /// draft may be one level too high.
    pub fn refit(&mut self) {
        for level in 1..=TOP_LEVEL + 1 {
            for page in 0..self.pages.len() {
                if self.pages[page].level == level {
                    self.refit_page(page);
                }
            }
        }
    }

    fn refit_page(&mut self, page: usize) {
        for place in 0..self.pages[page].entries.len() {
            let child = self.pages[page].entries[place].r;
            self.pages[page].entries[place] = self.entry_for(child);
        }
    }

    /// Counts the pieces of all leaves.
    pub fn recount(&mut self) {
        let leaves = self.pages.iter().filter(|page| page.level == 0);
        self.pieces = leaves.map(|page| page.entries.len() as u32).sum();
    }

    /// Gives page p the number `numbers[p]`; the numbers are 0 to k - 1.
    pub fn renumber(&mut self, numbers: &[u32]) {
        let mut pages = self.pages.clone();
        for (page, &number) in self.pages.iter().zip(numbers) {
            pages[number as usize] = page.clone();
        }
        for page in pages.iter_mut().filter(|page| page.level > 0) {
            for entry in &mut page.entries {
                entry.r = numbers[entry.r as usize];
            }
        }
        self.pages = pages;
        self.root = numbers[self.root as usize];
    }
}

/// How many entries a built table's pages have.
#[derive(Clone, Copy, Debug, PartialEq, Eq)]
pub enum Fill {
    /// Four each, as far as the number of entries allows.
    Least,
    /// Eight each, as far as the number of entries allows.
    Most,
    /// Four to eight, by chance.
    Mixed,
}

/// How a built table's pages are numbered.
#[derive(Clone, Copy, Debug, PartialEq, Eq)]
pub enum Order {
    LeavesFirst,
    RootFirst,
    /// Any numbers; the entries of each page are shuffled too.
    Shuffled,
}

/// Builds a sound table over any pieces with distinct numbers, from the leaves
/// up: neighbours in the list go to the same leaf, and so on above.
pub fn build(pieces: &[Piece], fill: Fill, order: Order, random: &mut Random) -> Vec<u32> {
    let mut draft = built(pieces, fill, random);
    let k = draft.pages.len() as u32;
    let mut numbers: Vec<u32> = (0..k).collect();
    match order {
        Order::LeavesFirst => {}
        Order::RootFirst => numbers.reverse(),
        Order::Shuffled => {
            random.shuffle(&mut numbers);
            for page in &mut draft.pages {
                random.shuffle(&mut page.entries);
            }
        }
    }
    draft.renumber(&numbers);
    draft.words()
}

fn built(pieces: &[Piece], fill: Fill, random: &mut Random) -> Draft {
    let mut draft = Draft {
        root: 0,
        pieces: pieces.len() as u32,
        pages: Vec::new(),
    };
    let mut entries: Vec<Entry> = pieces.iter().map(|&(r, rect)| Entry { rect, r }).collect();
    for level in 0.. {
        let below = draft.pages.len();
        let mut rest = &entries[..];
        for size in sizes(entries.len(), fill, random) {
            let (group, others) = rest.split_at(size);
            let entries = group.to_vec();
            draft.pages.push(Page { level, entries });
            rest = others;
        }
        let made = below as u32..draft.pages.len() as u32;
        if made.len() == 1 {
            break;
        }
        entries = made.map(|page| draft.entry_for(page)).collect();
    }
    draft.root = draft.pages.len() as u32 - 1;
    draft
}

/// Divides `count` entries among pages of four to eight. Fewer than eight can
/// only go to one page, the root.
fn sizes(count: usize, fill: Fill, random: &mut Random) -> Vec<usize> {
    if count < 2 * LEAST_ENTRIES {
        return vec![count];
    }
    let fewest = count.div_ceil(ENTRIES);
    let most = count / LEAST_ENTRIES;
    let pages = match fill {
        Fill::Least => most,
        Fill::Most => fewest,
        Fill::Mixed => random.between(fewest as u32, most as u32) as usize,
    };
    let mut sizes = vec![count / pages; pages];
    for size in &mut sizes[..count % pages] {
        *size += 1;
    }
    if fill == Fill::Mixed {
        vary(&mut sizes, random);
    }
    sizes
}

/// Moves entries from page to page, by chance.
fn vary(sizes: &mut [usize], random: &mut Random) {
    for _ in 0..4 * sizes.len() {
        let from = random.below(sizes.len() as u32) as usize;
        let to = random.below(sizes.len() as u32) as usize;
        if from != to && sizes[from] > LEAST_ENTRIES && sizes[to] < ENTRIES {
            sizes[from] -= 1;
            sizes[to] += 1;
        }
    }
}

/// The table that place calls make of these pieces, in order.
pub fn placed(pieces: &[Piece]) -> Vec<u32> {
    let mut table = vec![0; TABLE_WORDS];
    empty(&mut table);
    for &(number, rect) in pieces {
        place(&mut table, number, rect);
    }
    table
}

/// The pieces of a sound table, by rising number.
pub fn pieces_in(table: &[u32]) -> Vec<Piece> {
    let mut found: Vec<Piece> = pieces_of(table)
        .map(|entry| (entry.r, entry.rect))
        .collect();
    found.sort_unstable_by_key(|piece| piece.0);
    found
}

/// "piece c at (10c, 0, 10c + 5, 5)"
pub fn nine_pieces() -> Vec<Piece> {
    (0..9)
        .map(|c| (c, Rect::new(10 * c, 0, 10 * c + 5, 5)))
        .collect()
}

/// Kinds of lays.
#[derive(Clone, Copy, Debug, PartialEq, Eq)]
pub enum Family {
    /// Apart from each other, in rows of 32.
    Grid,
    /// Ends from 0 to 8 only, so that nearly everything is equal somewhere.
    Tiny,
    /// Small ones anywhere on the cloth.
    Spread,
    /// Of any size, anywhere on the cloth.
    Large,
    /// One unit wide or high, across the whole cloth.
    Strips,
    /// Each within the one before.
    Nested,
    /// All the same.
    Equal,
    /// Touching an edge of the cloth.
    Edges,
}

impl Family {
    pub const ALL: [Family; 8] = [
        Family::Grid,
        Family::Tiny,
        Family::Spread,
        Family::Large,
        Family::Strips,
        Family::Nested,
        Family::Equal,
        Family::Edges,
    ];

    /// A valid rectangle of this kind, for the piece at position c < 1,024.
    pub fn rect(self, c: u32, random: &mut Random) -> Rect {
        match self {
            Family::Grid => {
                let (x, y) = (c % 32 * 900, c / 32 * 700);
                Rect::new(x, y, x + 800, y + 600)
            }
            Family::Tiny => within(8, random),
            Family::Spread => {
                let (x, y) = (random.below(EDGE - 9_999), random.below(EDGE - 9_999));
                let (width, height) = (random.between(1, 9_999), random.between(1, 9_999));
                Rect::new(x, y, x + width, y + height)
            }
            Family::Large => within(EDGE, random),
            Family::Strips if c.is_multiple_of(2) => Rect::new(c * 900, 0, c * 900 + 1, EDGE),
            Family::Strips => Rect::new(0, c * 900, EDGE, c * 900 + 1),
            Family::Nested => Rect::new(c, c, EDGE - c, EDGE - c),
            Family::Equal => Rect::new(3, 4, 30, 40),
            Family::Edges => {
                let (a, b) = ends(0, EDGE, random);
                let depth = random.between(1, 5);
                match random.below(4) {
                    0 => Rect::new(a, 0, b, depth),
                    1 => Rect::new(a, EDGE - depth, b, EDGE),
                    2 => Rect::new(0, a, depth, b),
                    _ => Rect::new(EDGE - depth, a, EDGE, b),
                }
            }
        }
    }

    /// So many pieces of this kind, their numbers in any order.
    pub fn pieces(self, count: usize, random: &mut Random) -> Vec<Piece> {
        let mut numbers: Vec<u32> = (0..PIECES as u32).collect();
        random.shuffle(&mut numbers);
        let numbers = numbers.into_iter().take(count).enumerate();
        numbers
            .map(|(c, number)| (number, self.rect(c as u32, random)))
            .collect()
    }
}

/// A valid rectangle of any size, its edges from 0 to `size`.
pub fn within(size: u32, random: &mut Random) -> Rect {
    let (x1, x2) = ends(0, size, random);
    let (y1, y2) = ends(0, size, random);
    Rect::new(x1, y1, x2, y2)
}

/// All pairs of valid rectangles whose edges are among these numbers.
pub fn pairs_on(numbers: &[u32]) -> Vec<(Rect, Rect)> {
    let all = rectangles_on(numbers);
    let with_each = |&one: &Rect| all.iter().map(move |&other| (one, other));
    all.iter().flat_map(with_each).collect()
}

fn rectangles_on(numbers: &[u32]) -> Vec<Rect> {
    let mut all = Vec::new();
    for &x1 in numbers {
        for &y1 in numbers {
            for &x2 in numbers {
                all.extend(numbers.iter().map(|&y2| Rect::new(x1, y1, x2, y2)));
            }
        }
    }
    all.retain(|rect| rect.is_valid());
    all
}

/// Two different numbers from `low` to `high`, the lower first.
fn ends(low: u32, high: u32, random: &mut Random) -> (u32, u32) {
    let a = random.between(low, high);
    let b = random.between(low, high - 1);
    let b = if b < a { b } else { b + 1 };
    (a.min(b), a.max(b))
}

/// Sound tables with names: some that place calls make, most that they never
/// make. The same ones each time.
pub fn samples() -> Vec<(&'static str, Vec<u32>)> {
    use self::{Family::*, Fill::*, Order::*};
    let random = &mut Random::new(1);
    let mut make = |family: Family, count, fill, order| {
        let pieces = family.pieces(count, random);
        build(&pieces, fill, order, random)
    };
    let mut samples = vec![
        ("leaf-root-1", make(Tiny, 1, Least, LeavesFirst)),
        ("leaf-root-5", make(Grid, 5, Least, LeavesFirst)),
        ("leaf-root-8", make(Tiny, 8, Most, LeavesFirst)),
        ("two-leaves-of-4", make(Tiny, 8, Least, RootFirst)),
        ("three-levels", make(Grid, 40, Least, Shuffled)),
        ("twins", make(Equal, 40, Least, Shuffled)),
        ("least-fill-spread-100", make(Spread, 100, Least, Shuffled)),
        ("most-fill-tiny-100", make(Tiny, 100, Most, RootFirst)),
        ("mixed-fill-edges-300", make(Edges, 300, Mixed, Shuffled)),
        ("five-levels-least", make(Grid, 512, Least, RootFirst)),
        ("full-341-pages", make(Large, 1024, Least, Shuffled)),
        ("full-most-fill", make(Nested, 1024, Most, LeavesFirst)),
        ("full-mixed-fill", make(Strips, 1024, Mixed, Shuffled)),
        ("one-short-of-full", make(Spread, 1023, Least, Shuffled)),
    ];
    samples.push(("nine", placed(&nine_pieces())));
    samples.push(("empty", placed(&[])));
    for (name, family) in [("placed-tiny-200", Tiny), ("placed-spread-1024", Spread)] {
        let count = if family == Tiny { 200 } else { 1024 };
        samples.push((name, placed(&family.pieces(count, random))));
    }
    samples
}

#[cfg(test)]
mod tests {
    use super::*;
    use crate::pages::{level, page_count};
    use crate::soundness::check;

    #[test]
    fn samples_are_sound() {
        for (name, table) in samples() {
            assert_eq!(check(&table), (0, piece_count(&table)), "{name}");
        }
    }

    #[test]
    fn built_tables_are_sound_and_hold_their_pieces() {
        let mut random = Random::new(3);
        for family in Family::ALL {
            for fill in [Fill::Least, Fill::Most, Fill::Mixed] {
                for order in [Order::LeavesFirst, Order::RootFirst, Order::Shuffled] {
                    let count = random.below(1025) as usize;
                    let mut pieces = family.pieces(count, &mut random);
                    assert!(pieces.iter().all(|piece| piece.1.is_valid()));
                    let table = build(&pieces, fill, order, &mut random);
                    assert_eq!(check(&table), (0, count as u32));
                    pieces.sort_unstable_by_key(|piece| piece.0);
                    assert_eq!(pieces_in(&table), pieces);
                }
            }
        }
    }

    #[test]
    fn a_full_table_of_least_fill_has_341_pages_and_level_4() {
        let samples = samples();
        let (_, full) = samples.iter().find(|s| s.0 == "full-341-pages").unwrap();
        assert_eq!(page_count(full), 341);
        assert_eq!(level(full, root(full)), 4);
        assert_eq!(piece_count(full), 1024);
    }

    #[test]
    fn taking_apart_and_putting_together() {
        for (name, table) in samples() {
            let mut draft = Draft::of(&table);
            draft.refit();
            draft.recount();
            assert_eq!(draft.words(), table, "{name}");
        }
    }
}
