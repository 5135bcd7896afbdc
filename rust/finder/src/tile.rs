//! The nine tiles by name: their places in [`Shares`](crate::Shares), in rising
//! rows from the south, west to east.

/// South of the reference and west of it.
pub const SOUTH_WEST: usize = 0;
/// South of the reference, between its sides.
pub const SOUTH: usize = 1;
/// South of the reference and east of it.
pub const SOUTH_EAST: usize = 2;
/// West of the reference, between its sides.
pub const WEST: usize = 3;
/// The reference itself.
pub const WITHIN: usize = 4;
/// East of the reference, between its sides.
pub const EAST: usize = 5;
/// North of the reference and west of it.
pub const NORTH_WEST: usize = 6;
/// North of the reference, between its sides.
pub const NORTH: usize = 7;
/// North of the reference and east of it.
pub const NORTH_EAST: usize = 8;
