//! Document 01 once more, in plain safe Rust, and the requests of document 02
//! that landed: 2.3, 2.9, 2.10 and 2.12.
//!
//! This crate is a second reading of the papers. It shares nothing with the
//! finder itself, so that the two can be compared. It is written for clarity:
//! small functions, each beside the sentence of the paper that it follows.
//!
//! ```
//! use model::{empty, place, query, Rect, TABLE_WORDS};
//!
//! let mut table = vec![0; TABLE_WORDS];
//! assert_eq!(empty(&mut table), 0);
//! assert_eq!(place(&mut table, 5, Rect::new(0, 0, 10, 10)), 0);
//!
//! let mut answer = [0; 1024];
//! let equal = 1 << 5;
//! let found = query(&table, Rect::new(0, 0, 10, 10), &[equal], &mut answer);
//! assert_eq!(found, (0, 1, 1));
//! assert_eq!(model::front(&answer, 1), [5]);
//! ```

#![forbid(unsafe_code)]

// The papers.
pub mod clauses;
pub mod codes;
pub mod fractions;
pub mod inside;
pub mod job;
pub mod nearest;
pub mod outlines;
pub mod pages;
pub mod placing;
pub mod queries;
pub mod rectangles;
pub mod refusals;
pub mod relations;
pub mod sizes;
pub mod soundness;
pub mod tiles;
pub mod turning;

// Tables, rectangles and outlines to try it on.
pub mod damage;
pub mod random;
pub mod shapes;
pub mod tables;

pub use clauses::admitted;
pub use job::job;
pub use nearest::nearest_piece;
pub use outlines::{outline_area, outline_point};
pub use pages::empty;
pub use placing::place;
pub use queries::{front, opened_pages, query};
pub use rectangles::Rect;
pub use sizes::{PAGES, PIECES, TABLE_WORDS};
pub use soundness::check;
pub use tiles::tile_shares;
pub use turning::{turned_clause, turned_rect};
