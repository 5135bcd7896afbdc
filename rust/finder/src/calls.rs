//! The calls, with refusals as errors.

use crate::{raw, Refusal, TILES};

/// A rectangle in tenths of a millimetre; x grows to the east, y to the north.
/// It is valid when x1 < x2, y1 < y2 and none exceeds 1,000,000. Any numbers
/// may be passed on. In C, `finder_rect`.
#[repr(C)]
#[derive(Clone, Copy, Debug, PartialEq, Eq, Hash)]
pub struct Rect {
    /// The west side.
    pub x1: u32,
    /// The south side.
    pub y1: u32,
    /// The east side.
    pub x2: u32,
    /// The north side.
    pub y2: u32,
}

impl Rect {
    /// The rectangle of these four numbers.
    pub const fn new(x1: u32, y1: u32, x2: u32, y2: u32) -> Rect {
        Rect { x1, y1, x2, y2 }
    }
}

/// What an accepted query reports.
#[derive(Clone, Copy, Debug, PartialEq, Eq)]
pub struct Listed {
    /// How many piece numbers stand at the start of the answer.
    pub hits: u32,
    /// How many pages were opened.
    pub opened: u32,
}

/// An admitted set.
#[derive(Clone, Copy, Debug, PartialEq, Eq)]
pub struct Admitted {
    /// Row set i stands at place i - 1; its bit j - 1 is one for each admitted
    /// configuration (i, j).
    pub rows: [u16; 13],
    /// How many of the 169 configurations are admitted.
    pub count: u32,
}

/// Where a point lies by an outline.
#[derive(Clone, Copy, Debug, PartialEq, Eq, Hash)]
pub enum Place {
    /// On an edge or at a corner.
    On = 1,
    /// Off the outline, with an odd number of crossings to the east.
    Inside = 2,
    /// Off the outline, with an even number of crossings to the east.
    Outside = 3,
}

/// How a piece is shared among the nine tiles of a reference: each tile's
/// number stands at its place, which has a name in [`tile`](crate::tile).
#[derive(Clone, Copy, Debug, PartialEq, Eq)]
pub struct Shares {
    /// The area of the piece in each tile; they add up to the piece's area.
    pub areas: [u64; TILES],
    /// How many whole thousandths of the piece's area that is.
    pub thousandths: [u64; TILES],
    /// What this division leaves over: 1,000 times the tile's area is the
    /// thousandths times the piece's area, and this.
    pub remainders: [u64; TILES],
}

/// A piece, and how far it is from the point.
#[derive(Clone, Copy, Debug, PartialEq, Eq, Hash)]
pub struct NearPiece {
    /// Its number.
    pub number: u32,
    /// Its squared distance: 0 where the point is inside it or on its edge, else
    /// the squares of the gaps in x and in y, added.
    pub distance: u64,
}

/// What [`nearest_piece`] finds: a piece, or a page that is left, or both.
#[derive(Clone, Copy, Debug, PartialEq, Eq, Hash)]
pub struct Nearest {
    /// The nearest piece of the opened leaves, the lowest number among those as
    /// near; nothing when no leaf was opened.
    pub piece: Option<NearPiece>,
    /// How many pages were opened: at least 1, and no more than the allowance.
    pub opened: u32,
    /// The least squared distance of a page that could have been opened next;
    /// nothing when all were opened.
    pub left: Option<u64>,
}

/// Zero is accepted; every other number is one of the refusals.
fn accepted(number: u32) -> Result<(), Refusal> {
    match (number, Refusal::from_number(number)) {
        (0, _) => Ok(()),
        (_, Some(refusal)) => Err(refusal),
        (_, None) => panic!("the finder returned {number}, which is no refusal"),
    }
}

/// Makes a table empty, whatever its words are.
///
/// ```
/// let mut table = vec![7; finder::TABLE_WORDS];
/// finder::empty(&mut table)?;
/// assert_eq!(finder::check(&table), Ok(0));
/// assert_eq!(finder::empty(&mut table[1..]), Err(finder::Refusal::TableTooShort));
/// # Ok::<(), finder::Refusal>(())
/// ```
pub fn empty(table: &mut [u32]) -> Result<(), Refusal> {
    accepted(raw::empty(table))
}

/// Tests whether a table is sound, and returns its piece count.
///
/// ```
/// use finder::{check, Refusal};
/// assert_eq!(check(&[]), Err(Refusal::TableTooShort));
/// assert_eq!(check(&[0; finder::TABLE_WORDS]), Err(Refusal::TableNotSound));
/// ```
pub fn check(table: &[u32]) -> Result<u32, Refusal> {
    let checked = raw::check(table);
    accepted(checked.refusal)?;
    Ok(checked.pieces)
}

/// Places a piece.
///
/// ```
/// use finder::{place, Rect, Refusal};
/// let mut table = vec![0; finder::TABLE_WORDS];
/// finder::empty(&mut table)?;
/// place(&mut table, 1023, Rect::new(0, 0, 1_000_000, 1_000_000))?;
/// let square = Rect::new(0, 0, 10, 10);
/// assert_eq!(place(&mut table, 1023, square), Err(Refusal::AlreadyStanding));
/// assert_eq!(place(&mut table, 1024, square), Err(Refusal::NumberTooLarge));
/// let flat = Rect::new(0, 5, 10, 5);
/// assert_eq!(place(&mut table, 0, flat), Err(Refusal::RectangleNotValid));
/// # Ok::<(), Refusal>(())
/// ```
pub fn place(table: &mut [u32], number: u32, rect: Rect) -> Result<(), Refusal> {
    accepted(raw::place(table, number, rect))
}

/// Writes the numbers of the pieces that the clauses admit at the start of
/// `answer`, each one time and rising, and leaves the rest of it. The answer
/// needs as many words as the table has pieces.
///
/// ```
/// use finder::{front, query, relation::*, Rect};
/// let mut table = vec![0; finder::TABLE_WORDS];
/// finder::empty(&mut table)?;
/// finder::place(&mut table, 8, Rect::new(80, 0, 85, 5))?;
/// finder::place(&mut table, 3, Rect::new(85, 0, 90, 5))?;
/// let mut answer = [0; finder::PIECES];
///
/// let reference = Rect::new(80, 0, 85, 5);
/// let listed = query(&table, reference, &[one_of(&[EQUAL])], &mut answer)?;
/// assert_eq!((listed.hits, listed.opened), (1, 1));
/// assert_eq!(front(&answer, 1), [8]);
///
/// let wish = [one_of(&[EQUAL, JUST_EAST])];
/// let listed = query(&table, reference, &wish, &mut answer)?;
/// assert_eq!(front(&answer, listed.hits as usize), [3, 8]);
/// # Ok::<(), finder::Refusal>(())
/// ```
pub fn query(
    table: &[u32],
    reference: Rect,
    clauses: &[u64],
    answer: &mut [u16],
) -> Result<Listed, Refusal> {
    let found = raw::query(table, reference, clauses, answer);
    accepted(found.refusal)?;
    Ok(Listed {
        hits: found.hits,
        opened: found.opened,
    })
}

/// Writes the numbers of the pages that the query opens at the start of
/// `answer`, each one time and in any order, and returns how many. The answer
/// needs as many words as the table has pages.
///
/// ```
/// use finder::{opened_pages, relation::*, Rect};
/// let mut table = vec![0; finder::TABLE_WORDS];
/// finder::empty(&mut table)?;
/// let mut pages = [0; finder::PAGES];
/// let anywhere = Rect::new(0, 0, 1, 1);
/// let count = opened_pages(&table, anywhere, &[one_of(&[EQUAL])], &mut pages)?;
/// assert_eq!(count, 1); // the root is always opened
/// # Ok::<(), finder::Refusal>(())
/// ```
pub fn opened_pages(
    table: &[u32],
    reference: Rect,
    clauses: &[u64],
    answer: &mut [u16],
) -> Result<u32, Refusal> {
    let opened = raw::opened_pages(table, reference, clauses, answer);
    accepted(opened.refusal)?;
    Ok(opened.count)
}

/// The configurations that clauses admit.
///
/// ```
/// use finder::{admitted, relation::*, Refusal};
/// let count = |clauses: &[u64]| admitted(clauses).map(|set| set.count);
/// assert_eq!(count(&[one_of(&[OVERLAP]), one_of(&[NORTH])]), Ok(9));
/// assert_eq!(count(&[one_of(&[WEAK_CORNER_NORTH])]), Ok(3));
/// assert_eq!(count(&[one_of(&[EQUAL]), one_of(&[CONTAINS])]), Ok(0));
/// assert_eq!(count(&[]), Err(Refusal::ClauseCount));
/// assert_eq!(count(&[one_of(&[])]), Err(Refusal::ClauseNotValid));
/// ```
pub fn admitted(clauses: &[u64]) -> Result<Admitted, Refusal> {
    let set = raw::admitted(clauses);
    accepted(set.refusal)?;
    Ok(Admitted {
        rows: set.rows,
        count: set.count,
    })
}

/// The front part of an answer, with no copy: the first `count` words, or the
/// empty part when there are not so many.
///
/// ```
/// assert_eq!(finder::front(&[3, 5, 8], 2), [3, 5]);
/// assert_eq!(finder::front(&[3, 5, 8], 4), []);
/// ```
pub fn front(answer: &[u16], count: usize) -> &[u16] {
    answer.get(..count).unwrap_or_default()
}

/// Twice the signed area of an outline: positive when its points run
/// counter-clockwise, negative when they run clockwise. An outline is the words
/// x, y of 3 to 64 points in turn, the last joined to the first, no coordinate
/// above 1,000,000.
///
/// ```
/// use finder::{outline_area, Refusal};
/// let triangle = [0, 0, 40, 0, 0, 30];
/// assert_eq!(outline_area(&triangle), Ok(1200));
/// let clockwise = [0, 0, 0, 30, 40, 0];
/// assert_eq!(outline_area(&clockwise), Ok(-1200));
/// assert_eq!(outline_area(&triangle[..4]), Err(Refusal::PointCount));
/// let too_wide = [0, 0, 1_000_001, 0, 0, 30];
/// assert_eq!(outline_area(&too_wide), Err(Refusal::CoordinateTooLarge));
/// ```
pub fn outline_area(outline: &[u32]) -> Result<i64, Refusal> {
    let area = raw::outline_area(outline);
    accepted(area.refusal)?;
    Ok(area.twice_area)
}

/// Where the point (x, y) lies by an outline, which may cross itself.
///
/// ```
/// use finder::{outline_point, Place, Refusal};
/// let bow_tie = [0, 0, 40, 40, 40, 0, 0, 40];
/// assert_eq!(outline_point(&bow_tie, 20, 20), Ok(Place::On));
/// assert_eq!(outline_point(&bow_tie, 10, 20), Ok(Place::Inside));
/// assert_eq!(outline_point(&bow_tie, 20, 10), Ok(Place::Outside));
/// let far = outline_point(&bow_tie, 20, 1_000_001);
/// assert_eq!(far, Err(Refusal::CoordinateTooLarge));
/// ```
pub fn outline_point(outline: &[u32], x: u32, y: u32) -> Result<Place, Refusal> {
    let located = raw::outline_point(outline, x, y);
    accepted(located.refusal)?;
    match located.place {
        1 => Ok(Place::On),
        2 => Ok(Place::Inside),
        3 => Ok(Place::Outside),
        number => panic!("the finder returned {number}, which is no place"),
    }
}

/// How a piece is shared among the nine tiles into which the lines of the
/// reference's edges cut the plane.
///
/// ```
/// use finder::{tile, tile_shares, Rect, Refusal};
/// let piece = Rect::new(150, 180, 210, 230);
/// let reference = Rect::new(100, 100, 200, 200);
/// let shares = tile_shares(piece, reference)?;
/// assert_eq!(shares.areas[tile::NORTH], 1500);
/// assert_eq!(shares.thousandths[tile::NORTH], 500);
/// assert_eq!(shares.areas[tile::NORTH_EAST], 300);
/// assert_eq!(shares.areas[tile::WITHIN], 1000);
/// // 1,000 times 1,000 is 333 times 3,000, the piece's area, and 1,000.
/// assert_eq!(shares.thousandths[tile::WITHIN], 333);
/// assert_eq!(shares.remainders[tile::WITHIN], 1000);
/// let flat = Rect::new(100, 100, 200, 100);
/// assert_eq!(tile_shares(piece, flat), Err(Refusal::RectangleNotValid));
/// # Ok::<(), Refusal>(())
/// ```
pub fn tile_shares(piece: Rect, reference: Rect) -> Result<Shares, Refusal> {
    let shares = raw::tile_shares(piece, reference);
    accepted(shares.refusal)?;
    Ok(Shares {
        areas: shares.areas,
        thousandths: shares.thousandths,
        remainders: shares.remainders,
    })
}

/// The rectangle after a quarter turn of the whole cloth, clockwise: what was
/// north is east. One that is not valid gives four zeros, which are not valid
/// either: a call that refuses the one refuses the other. Nothing is refused
/// here. Four turns of a valid one are no turn.
///
/// ```
/// use finder::{turned_rect, Rect, EDGE};
/// let piece = Rect::new(5, 0, 20, 7);
/// let turned = turned_rect(piece);
/// assert_eq!(turned, Rect::new(0, EDGE - 20, 7, EDGE - 5));
/// let three_times = turned_rect(turned_rect(turned));
/// assert_eq!(turned_rect(three_times), piece);
/// let flat = Rect::new(5, 7, 20, 7);
/// assert_eq!(turned_rect(flat), Rect::new(0, 0, 0, 0));
/// ```
pub fn turned_rect(rect: Rect) -> Rect {
    raw::turned_rect(rect)
}

/// The clause after the same turn: each named relation of north is one of east,
/// of the same kind, and so on round to west, which is north. The topological
/// ones stay, and so do bits from 40 on, which every call refuses. Any bits may
/// be passed on; nothing is refused here.
///
/// The turned query on the turned pieces lists the same numbers:
///
/// ```
/// use finder::{relation::*, *};
/// # fn main() -> Result<(), Refusal> {
/// let pieces = [
///     Rect::new(120, 150, 180, 250), // across the north side
///     Rect::new(150, 120, 250, 180), // across the east side
///     Rect::new(50, 120, 150, 180),  // across the west side
/// ];
/// let (mut along, mut across) = (vec![0; TABLE_WORDS], vec![0; TABLE_WORDS]);
/// empty(&mut along)?;
/// empty(&mut across)?;
/// for (number, piece) in (0..).zip(pieces) {
///     place(&mut along, number, piece)?;
///     place(&mut across, number, turned_rect(piece))?;
/// }
///
/// // "Overlaps, and is north or east", and after the turn "east or south".
/// let reference = Rect::new(100, 100, 200, 200);
/// let wish = [one_of(&[OVERLAP]), one_of(&[NORTH, EAST])];
/// let turned_wish = wish.map(turned_clause);
/// assert_eq!(turned_wish, [one_of(&[OVERLAP]), one_of(&[EAST, SOUTH])]);
///
/// let (mut answer, mut turned_answer) = ([0; PIECES], [0; PIECES]);
/// let listed = query(&along, reference, &wish, &mut answer)?;
/// let turned = query(&across, turned_rect(reference), &turned_wish, &mut turned_answer)?;
/// assert_eq!(front(&answer, listed.hits as usize), [0, 1]);
/// assert_eq!(front(&turned_answer, turned.hits as usize), [0, 1]);
/// # Ok(())
/// # }
/// ```
pub fn turned_clause(clause: u64) -> u64 {
    raw::turned_clause(clause)
}

/// The piece nearest to the point (x, y), with at most `allowance` pages opened,
/// 1 to 341 ([`PAGES`](crate::PAGES)). From the root on, the nearest page that
/// can be opened is opened next, of those as near the one with the lower number,
/// until the allowance is spent or none is nearer than the piece.
///
/// No piece of the table is nearer than the smaller of the two distances, or
/// than the only one that is there. So a piece no farther than what is left is
/// the nearest of all, and with an allowance of 341 it always is.
///
/// ```
/// use finder::{nearest_piece, NearPiece, Nearest, Rect, Refusal, PAGES};
/// let mut table = vec![0; finder::TABLE_WORDS];
/// finder::empty(&mut table)?;
/// let of_none = nearest_piece(&table, 37, 2, PAGES as u32);
/// assert_eq!(of_none, Err(Refusal::NoPieces));
/// let pieces: Vec<Rect> = (0..9).map(|c| Rect::new(10 * c, 0, 10 * c + 5, 5)).collect();
/// for (number, &piece) in (0..).zip(&pieces) {
///     finder::place(&mut table, number, piece)?;
/// }
///
/// // The root alone: a page 2 units away is left, so no piece is nearer.
/// let nearest = nearest_piece(&table, 37, 2, 1)?;
/// assert_eq!(nearest, Nearest { piece: None, opened: 1, left: Some(4) });
/// // One leaf more: piece 3, as near; the other leaf is 3 units away.
/// let nearest = nearest_piece(&table, 37, 2, 2)?;
/// let piece = NearPiece { number: 3, distance: 4 };
/// assert_eq!(nearest, Nearest { piece: Some(piece), opened: 2, left: Some(9) });
///
/// // With 341 pages no piece of the table is nearer, whatever the point.
/// for (x, y) in [(0, 0), (38, 9), (44, 2), (1_000_000, 500)] {
///     let gap = |at: u32, low: u32, high: u32| u64::from(at.clamp(low, high).abs_diff(at));
///     let far = |p: &Rect| gap(x, p.x1, p.x2).pow(2) + gap(y, p.y1, p.y2).pow(2);
///     let nearest = nearest_piece(&table, x, y, PAGES as u32)?;
///     let least = pieces.iter().map(far).min();
///     assert_eq!(nearest.piece.map(|piece| piece.distance), least);
/// }
/// assert_eq!(nearest_piece(&table, 37, 2, 0), Err(Refusal::OutOfRange));
/// # Ok::<(), Refusal>(())
/// ```
pub fn nearest_piece(table: &[u32], x: u32, y: u32, allowance: u32) -> Result<Nearest, Refusal> {
    let nearest = raw::nearest_piece(table, x, y, allowance);
    accepted(nearest.refusal)?;
    let piece = NearPiece {
        number: nearest.number,
        distance: nearest.distance,
    };
    Ok(Nearest {
        piece: is_present(nearest.found).then_some(piece),
        opened: nearest.opened,
        left: is_present(nearest.left).then_some(nearest.left_distance),
    })
}

/// 1 where something is, 0 where it is absent.
fn is_present(number: u32) -> bool {
    match number {
        0 => false,
        1 => true,
        _ => panic!("the finder returned {number}, which is neither present nor absent"),
    }
}
