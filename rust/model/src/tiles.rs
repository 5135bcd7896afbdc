//! Tiles: "How a piece is shared among the nine tiles."

use super::rectangles::Rect;
use super::refusals::{ACCEPTED, RECTANGLE_NOT_VALID};
use super::sizes::{EDGE, TILES, TILES_IN_ROW};
use std::array;

/// The refusal; then for each tile its area, quotient and remainder.
pub type Shares = (u32, [u64; TILES], [u64; TILES], [u64; TILES]);

/// "the refusal is 2, and all areas, quotients and remainders are zero"
pub const REFUSED: Shares = (RECTANGLE_NOT_VALID, [0; TILES], [0; TILES], [0; TILES]);

/// The tiles call: "give the area of the piece in each tile", and "also the
/// whole per thousand of the piece's area, and the exact remainder of that
/// division". It is refused "If either rectangle is not valid".
pub fn tile_shares(piece: Rect, reference: Rect) -> Shares {
    if !piece.is_valid() || !reference.is_valid() {
        return REFUSED;
    }
    let areas = tiles(reference).map(|tile| part(piece, tile).map_or(0, Rect::area));
    let whole = piece.area();
    let thousandths = areas.map(|area| 1_000 * area / whole);
    let remainders = areas.map(|area| 1_000 * area % whole);
    (ACCEPTED, areas, thousandths, remainders)
}

/// "Source document 000 cuts the plane by the reference's four edge lines into
/// nine tiles", here "in rising rows from the south, west to east": in 000's
/// letters SW, S, SE, then W, B, E, then NW, N, NE.
pub fn tiles(reference: Rect) -> [Rect; TILES] {
    let columns = cut(reference.x1, reference.x2);
    let rows = cut(reference.y1, reference.y2);
    array::from_fn(|tile| {
        let (x1, x2) = columns[tile % TILES_IN_ROW];
        let (y1, y2) = rows[tile / TILES_IN_ROW];
        Rect { x1, y1, x2, y2 }
    })
}

/// An axis that two lines cut into three. It runs from 0 to 1,000,000, for no
/// valid piece is elsewhere; so the first and the last part may have no length.
fn cut(low: u32, high: u32) -> [(u32, u32); TILES_IN_ROW] {
    [(0, low), (low, high), (high, EDGE)]
}

/// What the piece and the tile have in common: the later start to the earlier
/// end on each axis. Nothing when they only touch or are apart.
fn part(piece: Rect, tile: Rect) -> Option<Rect> {
    let part = Rect {
        x1: piece.x1.max(tile.x1),
        y1: piece.y1.max(tile.y1),
        x2: piece.x2.min(tile.x2),
        y2: piece.y2.min(tile.y2),
    };
    part.is_valid().then_some(part)
}

#[cfg(test)]
mod tests {
    use super::*;

    const VALID: Rect = Rect::new(2, 3, 5, 7);

    #[test]
    fn either_rectangle_may_be_refused() {
        let flat = Rect::new(2, 3, 2, 7);
        let too_far = Rect::new(2, 3, 5, EDGE + 1);
        assert_eq!(tile_shares(VALID, VALID).0, 0);
        for not_valid in [flat, too_far] {
            assert_eq!(tile_shares(not_valid, VALID), REFUSED);
            assert_eq!(tile_shares(VALID, not_valid), REFUSED);
            assert_eq!(tile_shares(not_valid, not_valid), REFUSED);
        }
        assert_eq!(REFUSED, (2, [0; 9], [0; 9], [0; 9]));
    }

    #[test]
    fn tiles_rise_from_the_south_west() {
        let end = EDGE;
        let expected = [
            Rect::new(0, 0, 2, 3),
            Rect::new(2, 0, 5, 3),
            Rect::new(5, 0, end, 3),
            Rect::new(0, 3, 2, 7),
            VALID,
            Rect::new(5, 3, end, 7),
            Rect::new(0, 7, 2, end),
            Rect::new(2, 7, 5, end),
            Rect::new(5, 7, end, end),
        ];
        assert_eq!(tiles(VALID), expected);
    }

    #[test]
    fn only_what_has_an_area_is_in_common() {
        assert_eq!(part(VALID, VALID), Some(VALID));
        assert_eq!(
            part(VALID, Rect::new(4, 0, 9, 4)),
            Some(Rect::new(4, 3, 5, 4))
        );
        assert_eq!(part(VALID, Rect::new(5, 3, 9, 7)), None);
        assert_eq!(part(VALID, Rect::new(6, 8, 9, 9)), None);
        assert_eq!(part(VALID, Rect::new(0, 0, 0, 9)), None);
    }
}
