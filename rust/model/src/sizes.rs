//! The sizes of the papers, each named one time.

/// "none exceeds 1,000,000", and of an outline and of a point "each coordinate
/// at most 1,000,000"
pub const EDGE: u32 = 1_000_000;

/// "A piece has a number, 0 to 1,023": so many numbers.
pub const PIECES: usize = 1_024;

/// "A table is the first 14,325 words of a lent slice"
pub const TABLE_WORDS: usize = 14_325;

/// "Then come 341 pages"
pub const PAGES: usize = 341;

/// "a page is the 42 words that begin at word 3 + 42 times its number"
pub const PAGE_WORDS: usize = 42;

/// Words before page 0: page count, root, piece count.
pub const FIRST_PAGE_WORD: usize = 3;

/// Words of a page before its entries: level and entry count.
pub const FIRST_ENTRY_WORD: usize = 2;

/// "then 8 entries"
pub const ENTRIES: usize = 8;

/// "of x1, y1, x2, y2, r"
pub const ENTRY_WORDS: usize = 5;

/// "n is 4 to 8": the least number of entries below the root.
pub const LEAST_ENTRIES: usize = 4;

/// "Levels are 0 to 4"
pub const TOP_LEVEL: u32 = 4;

/// "A query is 1 to 8 clauses"
pub const CLAUSES: usize = 8;

/// Relations are numbered 0 to 39.
pub const RELATIONS: u32 = 40;

/// Axis codes are numbered 1 to 13.
pub const CODES: usize = 13;

/// "An outline is 3 to 64 points": the fewest.
pub const POINTS_FEWEST: usize = 3;

/// "An outline is 3 to 64 points": the most.
pub const POINTS: usize = 64;

/// "four edge lines into nine tiles"
pub const TILES: usize = 9;

/// "in rising rows from the south": tiles of a row, and rows.
pub const TILES_IN_ROW: usize = 3;
