//! The piece finder, safe to call from Rust.
//!
//! A table of up to 1,024 pieces is a slice of 32-bit words that the caller
//! owns. Pieces are placed in it, and a query writes the numbers of those whose
//! rectangle stands to a reference as a wish says; [`nearest_piece`] finds the
//! piece nearest to a point. These need no table: outlines of points,
//! [`outline_area`] and [`outline_point`]; how one rectangle is shared among the
//! tiles round another, [`tile_shares`]; a quarter turn of the cloth,
//! [`turned_rect`] and [`turned_clause`].
//!
//! ```
//! use finder::{relation::*, *};
//!
//! # fn main() -> Result<(), Refusal> {
//! let mut table = vec![0; TABLE_WORDS];
//! empty(&mut table)?;
//! for c in 0..9 {
//!     place(&mut table, c, Rect::new(10 * c, 0, 10 * c + 5, 5))?;
//! }
//! assert_eq!(check(&table)?, 9);
//!
//! // "Overlaps, and is north or east."
//! let wish = [one_of(&[OVERLAP]), one_of(&[NORTH, EAST])];
//! let mut answer = [0; PIECES];
//! let listed = query(&table, Rect::new(35, 0, 43, 3), &wish, &mut answer)?;
//! assert_eq!(front(&answer, listed.hits as usize), [4]);
//! # Ok(())
//! # }
//! ```
//!
//! Every call takes slices of any length with any words in them, comes to an
//! end, and does its work or refuses. A [`Refusal`] changes no word.

#![warn(missing_docs)]

mod calls;
pub mod ffi;
pub mod raw;
mod refusal;
pub mod relation;
pub mod tile;

pub use calls::{
    admitted, check, empty, front, nearest_piece, opened_pages, outline_area, outline_point, place,
    query, tile_shares, turned_clause, turned_rect, Admitted, Listed, NearPiece, Nearest, Place,
    Rect, Shares,
};
pub use refusal::Refusal;
pub use relation::{one_of, Relation};

/// Words of a table: "the first 14,325 words of a lent slice".
pub const TABLE_WORDS: usize = 14_325;

/// Pages of a table; so many answer words always suffice for opened pages, and
/// with an allowance of so many the nearest piece is the nearest of all.
pub const PAGES: usize = 341;

/// Piece numbers, 0 to 1,023; so many answer words always suffice for a query.
pub const PIECES: usize = 1_024;

/// The largest number in a valid rectangle, and the largest coordinate of an
/// outline or of a point.
pub const EDGE: u32 = 1_000_000;

/// The most clauses that a query may have.
pub const CLAUSES: usize = 8;

/// The fewest points that an outline may have.
pub const POINTS_FEWEST: usize = 3;

/// The most points that an outline may have, two words each.
pub const POINTS: usize = 64;

/// The tiles into which the four lines of a reference's edges cut the plane.
pub const TILES: usize = 9;
