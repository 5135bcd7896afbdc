//! What the model answers, as text that other programs are compared with, and
//! jobs to ask it. The program `vectors` prints them.

#![forbid(unsafe_code)]

pub mod formulas;
pub mod jobs;
pub mod lines;
pub mod named;
pub mod queries;
pub mod relations;
pub mod stored;
