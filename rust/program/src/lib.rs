//! Puts a job program beside the model: the bytes of a job go in by a pipe, and
//! what comes out must be what the model prints, to the last byte.
//!
//! The [`suites`] are the jobs to try and the ways to feed them. The program
//! `stand_in` answers with the model too, with a fault of reading or writing if
//! it is told one: each suite must notice those that are its own.

#![forbid(unsafe_code)]

mod compared;
mod feed;
pub mod random;
mod run;
pub mod suites;

pub use compared::{Compared, Outcome};
pub use feed::Feed;
pub use run::Program;
