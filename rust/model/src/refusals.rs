//! The numbers that calls return. "Zero means accepted".

pub const ACCEPTED: u32 = 0;
/// "1 table slice shorter than 14,325 words."
pub const TABLE_TOO_SHORT: u32 = 1;
/// "2 rectangle not valid."
pub const RECTANGLE_NOT_VALID: u32 = 2;
/// "3 piece number above 1,023."
pub const NUMBER_TOO_LARGE: u32 = 3;
/// "4 no clause, or more than 8."
pub const CLAUSE_COUNT: u32 = 4;
/// "5 a clause that is zero or has bit 40 or higher."
pub const CLAUSE_NOT_VALID: u32 = 5;
/// "6 table not sound."
pub const TABLE_NOT_SOUND: u32 = 6;
/// "7 number already standing"
pub const ALREADY_STANDING: u32 = 7;
/// "8 answer slice shorter than the piece count (query) or than k (opened pages)."
pub const ANSWER_TOO_SHORT: u32 = 8;
/// "10, odd word count, or point count outside 3 to 64"
pub const POINT_COUNT: u32 = 10;
/// "11, a coordinate of the outline or of the point above 1,000,000"
pub const COORDINATE_TOO_LARGE: u32 = 11;
/// "13, point or allowance out of range"
pub const OUT_OF_RANGE: u32 = 13;
/// "14, table without pieces"
pub const NO_PIECES: u32 = 14;
