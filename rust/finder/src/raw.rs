//! The calls with the very numbers that they return, refusals included. All of
//! the crate's unsafe code is here: it hands on the pointer and the length of a
//! slice, which is never a null pointer and always aligned, or plain numbers.

use crate::ffi;
pub use crate::ffi::{
    AdmittedSet, Answer, Area, Checked, Located, NearestFound, Opened, TileShares,
};
use crate::Rect;

/// The empty call. Returns zero or the refusal.
pub fn empty(table: &mut [u32]) -> u32 {
    // SAFETY: the pointer and the length are of one slice, lent for the call.
    unsafe { ffi::finder_empty(table.as_mut_ptr(), table.len()) }
}

/// The check call.
pub fn check(table: &[u32]) -> Checked {
    // SAFETY: the pointer and the length are of one slice, lent for the call,
    // which reads it only.
    unsafe { ffi::finder_check(table.as_ptr(), table.len()) }
}

/// The place call. Returns zero or the refusal.
pub fn place(table: &mut [u32], number: u32, rect: Rect) -> u32 {
    let Rect { x1, y1, x2, y2 } = rect;
    // SAFETY: the pointer and the length are of one slice, lent for the call.
    unsafe { ffi::finder_place(table.as_mut_ptr(), table.len(), number, x1, y1, x2, y2) }
}

/// The query call.
pub fn query(table: &[u32], reference: Rect, clauses: &[u64], answer: &mut [u16]) -> Answer {
    let Rect { x1, y1, x2, y2 } = reference;
    // SAFETY: each pointer and the length after it are of one slice, lent for
    // the call. Only the answer is written to, and it overlaps with no other.
    unsafe {
        ffi::finder_query(
            table.as_ptr(),
            table.len(),
            x1,
            y1,
            x2,
            y2,
            clauses.as_ptr(),
            clauses.len(),
            answer.as_mut_ptr(),
            answer.len(),
        )
    }
}

/// The opened-pages call.
pub fn opened_pages(table: &[u32], reference: Rect, clauses: &[u64], answer: &mut [u16]) -> Opened {
    let Rect { x1, y1, x2, y2 } = reference;
    // SAFETY: as for the query call.
    unsafe {
        ffi::finder_opened_pages(
            table.as_ptr(),
            table.len(),
            x1,
            y1,
            x2,
            y2,
            clauses.as_ptr(),
            clauses.len(),
            answer.as_mut_ptr(),
            answer.len(),
        )
    }
}

/// The admitted-set call.
pub fn admitted(clauses: &[u64]) -> AdmittedSet {
    // SAFETY: the pointer and the length are of one slice, lent for the call,
    // which reads it only.
    unsafe { ffi::finder_admitted_set(clauses.as_ptr(), clauses.len()) }
}

/// The outline-area call.
pub fn outline_area(outline: &[u32]) -> Area {
    // SAFETY: the pointer and the length are of one slice, lent for the call,
    // which reads it only.
    unsafe { ffi::finder_outline_area(outline.as_ptr(), outline.len()) }
}

/// The outline-point call.
pub fn outline_point(outline: &[u32], x: u32, y: u32) -> Located {
    // SAFETY: as for the outline-area call.
    unsafe { ffi::finder_outline_point(outline.as_ptr(), outline.len(), x, y) }
}

/// The tile-shares call.
pub fn tile_shares(piece: Rect, reference: Rect) -> TileShares {
    let (p, q) = (piece, reference);
    // SAFETY: nothing is lent; any numbers may be passed on.
    unsafe { ffi::finder_tile_shares(p.x1, p.y1, p.x2, p.y2, q.x1, q.y1, q.x2, q.y2) }
}

/// The turned-rectangle call.
pub fn turned_rect(rect: Rect) -> Rect {
    let Rect { x1, y1, x2, y2 } = rect;
    // SAFETY: as for the tile-shares call.
    unsafe { ffi::finder_turned_rect(x1, y1, x2, y2) }
}

/// The turned-clause call.
pub fn turned_clause(clause: u64) -> u64 {
    // SAFETY: as for the tile-shares call.
    unsafe { ffi::finder_turned_clause(clause) }
}

/// The nearest-piece call.
pub fn nearest_piece(table: &[u32], x: u32, y: u32, allowance: u32) -> NearestFound {
    // SAFETY: the pointer and the length are of one slice, lent for the call,
    // which reads it only.
    unsafe { ffi::finder_nearest_piece(table.as_ptr(), table.len(), x, y, allowance) }
}
