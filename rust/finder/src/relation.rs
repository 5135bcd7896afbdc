//! The relations 0 to 39 by name, and clauses made of them.
//!
//! The topological ones say how two outlines could stand to each other when
//! their rectangles stand so: [`OVERLAP`] admits 81 configurations, not only
//! those of overlapping rectangles.
//!
//! The directed ones are named by kind and direction. A corner belongs to the
//! direction from which it is reached clockwise: [`STRONG_CORNER_NORTH`] is
//! north east, [`STRONG_CORNER_EAST`] south east, and so on.

/// A relation: its number is from 0 to 39.
#[derive(Clone, Copy, Debug, PartialEq, Eq, Hash)]
pub struct Relation(u8);

impl Relation {
    /// The relation of this number; nothing above 39.
    ///
    /// ```
    /// use finder::relation::{Relation, EQUAL};
    /// assert_eq!(Relation::from_number(5), Some(EQUAL));
    /// assert_eq!(Relation::from_number(40), None);
    /// ```
    pub const fn from_number(number: u32) -> Option<Relation> {
        if number < 40 {
            Some(Relation(number as u8))
        } else {
            None
        }
    }

    /// Its number.
    pub const fn number(self) -> u32 {
        self.0 as u32
    }
}

/// A clause that names these relations: "at least one" of them must hold. A
/// clause that names none is refused by every call.
///
/// ```
/// use finder::relation::*;
/// assert_eq!(one_of(&[EQUAL]), 32);
/// assert_eq!(one_of(&[NORTH, EAST]), 1 << 15 | 1 << 23);
/// ```
pub const fn one_of(relations: &[Relation]) -> u64 {
    let mut clause = 0;
    let mut place = 0;
    while place < relations.len() {
        clause |= 1 << relations[place].0;
        place += 1;
    }
    clause
}

macro_rules! relations {
    ($($number:literal $name:ident $meaning:literal;)*) => {
        $(
            #[doc = concat!("Relation ", $number, ": ", $meaning, ".")]
            pub const $name: Relation = Relation($number);
        )*

        /// All relations, in order.
        pub const ALL: [Relation; 40] = [$($name),*];
    };
}

relations! {
    0 DISJOINT "the outlines are apart";
    1 MEET "the outlines touch";
    2 OVERLAP "the outlines overlap";
    3 COVERED_BY "the piece is within the reference and touches its edge";
    4 INSIDE "the piece is within the reference";
    5 EQUAL "the piece is the reference";
    6 COVERS "the reference is within the piece and touches its edge";
    7 CONTAINS "the reference is within the piece";
    8 STRONG_NORTH "wholly north";
    9 WEAK_NORTH "north, but beginning within the reference's span";
    10 STRONG_BOUNDED_NORTH "wholly north, between the sides of the reference";
    11 WEAK_BOUNDED_NORTH "weakly north, between the sides of the reference";
    12 STRONG_CORNER_NORTH "wholly north and wholly east: north east";
    13 WEAK_CORNER_NORTH "weakly north, and east";
    14 JUST_NORTH "north, beginning where the reference ends";
    15 NORTH "strong, weak or just north";
    16 STRONG_EAST "wholly east";
    17 WEAK_EAST "east, but beginning within the reference's span";
    18 STRONG_BOUNDED_EAST "wholly east, between the sides of the reference";
    19 WEAK_BOUNDED_EAST "weakly east, between the sides of the reference";
    20 STRONG_CORNER_EAST "wholly east and wholly south: south east";
    21 WEAK_CORNER_EAST "weakly east, and south";
    22 JUST_EAST "east, beginning where the reference ends";
    23 EAST "strong, weak or just east";
    24 STRONG_SOUTH "wholly south";
    25 WEAK_SOUTH "south, but beginning within the reference's span";
    26 STRONG_BOUNDED_SOUTH "wholly south, between the sides of the reference";
    27 WEAK_BOUNDED_SOUTH "weakly south, between the sides of the reference";
    28 STRONG_CORNER_SOUTH "wholly south and wholly west: south west";
    29 WEAK_CORNER_SOUTH "weakly south, and west";
    30 JUST_SOUTH "south, beginning where the reference ends";
    31 SOUTH "strong, weak or just south";
    32 STRONG_WEST "wholly west";
    33 WEAK_WEST "west, but beginning within the reference's span";
    34 STRONG_BOUNDED_WEST "wholly west, between the sides of the reference";
    35 WEAK_BOUNDED_WEST "weakly west, between the sides of the reference";
    36 STRONG_CORNER_WEST "wholly west and wholly north: north west";
    37 WEAK_CORNER_WEST "weakly west, and north";
    38 JUST_WEST "west, beginning where the reference ends";
    39 WEST "strong, weak or just west";
}
