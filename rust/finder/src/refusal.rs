//! The refusals.

use std::fmt;

/// Why a call did nothing. The numbers are those of the paper.
#[derive(Clone, Copy, Debug, PartialEq, Eq, Hash)]
pub enum Refusal {
    /// The table slice is shorter than 14,325 words.
    TableTooShort = 1,
    /// A rectangle is not valid.
    RectangleNotValid = 2,
    /// The piece number is above 1,023.
    NumberTooLarge = 3,
    /// There is no clause, or more than 8.
    ClauseCount = 4,
    /// A clause is zero or has bit 40 or higher.
    ClauseNotValid = 5,
    /// The table is not sound.
    TableNotSound = 6,
    /// The number already stands in the table.
    AlreadyStanding = 7,
    /// The answer slice is shorter than the piece count (query) or than the
    /// page count (opened pages).
    AnswerTooShort = 8,
    /// The outline has an odd number of words, or fewer than 3 or more than 64
    /// points.
    PointCount = 10,
    /// A coordinate of the outline or of the point is above 1,000,000.
    CoordinateTooLarge = 11,
    /// The point or the allowance of a nearest piece is out of range: x or y is
    /// above 1,000,000, or the allowance is 0 or above 341.
    OutOfRange = 13,
    /// The table has no pieces.
    NoPieces = 14,
}

impl Refusal {
    /// All of them, in order.
    pub const ALL: [Refusal; 12] = [
        Refusal::TableTooShort,
        Refusal::RectangleNotValid,
        Refusal::NumberTooLarge,
        Refusal::ClauseCount,
        Refusal::ClauseNotValid,
        Refusal::TableNotSound,
        Refusal::AlreadyStanding,
        Refusal::AnswerTooShort,
        Refusal::PointCount,
        Refusal::CoordinateTooLarge,
        Refusal::OutOfRange,
        Refusal::NoPieces,
    ];

    /// Its number: 1 to 8, 10, 11, 13 or 14.
    pub const fn number(self) -> u32 {
        self as u32
    }

    /// The refusal of this number; nothing for zero and for other numbers.
    ///
    /// ```
    /// use finder::Refusal;
    /// assert_eq!(Refusal::from_number(6), Some(Refusal::TableNotSound));
    /// assert_eq!(Refusal::from_number(0), None);
    /// assert_eq!(Refusal::from_number(9), None);
    /// ```
    pub fn from_number(number: u32) -> Option<Refusal> {
        Refusal::ALL
            .into_iter()
            .find(|refusal| refusal.number() == number)
    }
}

impl fmt::Display for Refusal {
    fn fmt(&self, f: &mut fmt::Formatter<'_>) -> fmt::Result {
        let why = match self {
            Refusal::TableTooShort => "table slice shorter than 14,325 words",
            Refusal::RectangleNotValid => "rectangle not valid",
            Refusal::NumberTooLarge => "piece number above 1,023",
            Refusal::ClauseCount => "no clause, or more than 8",
            Refusal::ClauseNotValid => "a clause that is zero or has bit 40 or higher",
            Refusal::TableNotSound => "table not sound",
            Refusal::AlreadyStanding => "number already standing",
            Refusal::AnswerTooShort => "answer slice too short",
            Refusal::PointCount => {
                "outline with an odd number of words, or not 3 to 64 points: give 3 to 64 points, \
                 x and y of each"
            }
            Refusal::CoordinateTooLarge => {
                "a coordinate of the outline or of the point above 1,000,000: give tenths of a \
                 millimetre, 0 to 1,000,000"
            }
            Refusal::OutOfRange => {
                "the point or the allowance is out of range: give x and y of 0 to 1,000,000, and 1 \
                 to 341 pages"
            }
            Refusal::NoPieces => "the table has no pieces",
        };
        write!(f, "refusal {}: {why}", self.number())
    }
}

impl std::error::Error for Refusal {}
