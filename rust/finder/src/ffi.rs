//! The C interface of the finder, as `finder.h` declares it.
//!
//! No pointer may be null, also for a length of 0; each must be aligned for
//! its type. The slices are lent for the time of the call.

use crate::Rect;

/// What `finder_check` returns.
#[repr(C)]
#[derive(Clone, Copy, Debug, PartialEq, Eq)]
pub struct Checked {
    /// Zero, or the number of the refusal.
    pub refusal: u32,
    /// The piece count.
    pub pieces: u32,
}

/// What `finder_query` returns.
#[repr(C)]
#[derive(Clone, Copy, Debug, PartialEq, Eq)]
pub struct Answer {
    /// Zero, or the number of the refusal.
    pub refusal: u32,
    /// How many piece numbers were written.
    pub hits: u32,
    /// How many pages were opened.
    pub opened: u32,
}

/// What `finder_opened_pages` returns.
#[repr(C)]
#[derive(Clone, Copy, Debug, PartialEq, Eq)]
pub struct Opened {
    /// Zero, or the number of the refusal.
    pub refusal: u32,
    /// How many page numbers were written.
    pub count: u32,
}

/// What `finder_admitted_set` returns.
#[repr(C)]
#[derive(Clone, Copy, Debug, PartialEq, Eq)]
pub struct AdmittedSet {
    /// Zero, or the number of the refusal.
    pub refusal: u32,
    /// Row set i at place i - 1.
    pub rows: [u16; 13],
    /// How many of the 169 configurations are admitted.
    pub count: u32,
}

/// What `finder_outline_area` returns.
#[repr(C)]
#[derive(Clone, Copy, Debug, PartialEq, Eq)]
pub struct Area {
    /// Zero, or the number of the refusal.
    pub refusal: u32,
    /// Twice the signed area.
    pub twice_area: i64,
}

/// What `finder_outline_point` returns: in C, `finder_point`.
#[repr(C)]
#[derive(Clone, Copy, Debug, PartialEq, Eq)]
pub struct Located {
    /// Zero, or the number of the refusal.
    pub refusal: u32,
    /// 1 on the outline, 2 inside, 3 outside; 0 when refused.
    pub place: u32,
}

/// What `finder_tile_shares` returns: in C, `finder_shares`. Tile 3 * row +
/// column stands at that place, rows from the south, columns from the west.
#[repr(C)]
#[derive(Clone, Copy, Debug, PartialEq, Eq)]
pub struct TileShares {
    /// Zero, or the number of the refusal.
    pub refusal: u32,
    /// The area of the piece in each tile.
    pub areas: [u64; 9],
    /// The whole thousandths of the piece's area.
    pub thousandths: [u64; 9],
    /// What that division leaves over.
    pub remainders: [u64; 9],
}

/// What `finder_nearest_piece` returns: in C, `finder_nearest`.
#[repr(C)]
#[derive(Clone, Copy, Debug, PartialEq, Eq)]
pub struct NearestFound {
    /// Zero, or the number of the refusal.
    pub refusal: u32,
    /// 1 where there is a piece, else 0.
    pub found: u32,
    /// The piece's number; 0 where there is none.
    pub number: u32,
    /// How many pages were opened.
    pub opened: u32,
    /// 1 where a reached page is left unopened, else 0.
    pub left: u32,
    /// The piece's squared distance; 0 where there is none.
    pub distance: u64,
    /// The least squared distance of a page that is left; 0 where there is none.
    pub left_distance: u64,
}

extern "C" {
    /// Makes the table empty.
    pub fn finder_empty(table: *mut u32, table_len: usize) -> u32;

    /// Tests whether the table is sound, and counts its pieces.
    pub fn finder_check(table: *const u32, table_len: usize) -> Checked;

    /// Places a piece.
    pub fn finder_place(
        table: *mut u32,
        table_len: usize,
        number: u32,
        x1: u32,
        y1: u32,
        x2: u32,
        y2: u32,
    ) -> u32;

    /// Lists the pieces that a wish admits.
    pub fn finder_query(
        table: *const u32,
        table_len: usize,
        x1: u32,
        y1: u32,
        x2: u32,
        y2: u32,
        clauses: *const u64,
        clause_count: usize,
        answer: *mut u16,
        answer_len: usize,
    ) -> Answer;

    /// Lists the pages that a query opens.
    pub fn finder_opened_pages(
        table: *const u32,
        table_len: usize,
        x1: u32,
        y1: u32,
        x2: u32,
        y2: u32,
        clauses: *const u64,
        clause_count: usize,
        answer: *mut u16,
        answer_len: usize,
    ) -> Opened;

    /// Gives the configurations that clauses admit.
    pub fn finder_admitted_set(clauses: *const u64, clause_count: usize) -> AdmittedSet;

    /// Gives twice the signed area of an outline.
    pub fn finder_outline_area(outline: *const u32, outline_len: usize) -> Area;

    /// Says where a point lies by an outline.
    pub fn finder_outline_point(outline: *const u32, outline_len: usize, x: u32, y: u32)
        -> Located;

    /// Shares the piece p among the nine tiles of the reference q.
    pub fn finder_tile_shares(
        px1: u32,
        py1: u32,
        px2: u32,
        py2: u32,
        qx1: u32,
        qy1: u32,
        qx2: u32,
        qy2: u32,
    ) -> TileShares;

    /// Gives the rectangle after a quarter turn.
    pub fn finder_turned_rect(x1: u32, y1: u32, x2: u32, y2: u32) -> Rect;

    /// Gives the clause after a quarter turn.
    pub fn finder_turned_clause(clause: u64) -> u64;

    /// Finds the piece nearest to the point (x, y), on a page allowance.
    pub fn finder_nearest_piece(
        table: *const u32,
        table_len: usize,
        x: u32,
        y: u32,
        allowance: u32,
    ) -> NearestFound;
}
