//! The jobs to try, in suites.

use crate::{Compared, Outcome};

mod chance;
mod large;
mod parts;

pub use chance::random_jobs;
pub use large::large_outputs;
pub use parts::pipe_in_parts;

pub type Suite = fn(&mut Compared) -> Outcome;

pub const SUITES: [Suite; 3] = [pipe_in_parts, large_outputs, random_jobs];
