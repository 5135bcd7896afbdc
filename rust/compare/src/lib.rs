//! Compares any set of the calls with the model.
//!
//! A [`Calls`] is put beside the model: both get the same slices, and every
//! returned number and every lent word must be the same afterwards. Only the
//! order of opened pages is free. The [`suites`] are the cases to try; all
//! their seeds are fixed.
//!
//! ```
//! use compare::{suites, Compared, Model};
//!
//! let mut compared = Compared::new(&Model);
//! suites::run("clauses", &mut compared).expect("the model equals itself");
//! assert!(compared.calls > 1000);
//! ```

#![forbid(unsafe_code)]

mod calls;
pub mod cases;
mod compared;
mod lent;
pub mod points;
pub mod suites;

pub use calls::{Calls, Model};
pub use compared::{Compared, Difference, Outcome};
