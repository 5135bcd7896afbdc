//! The runs of place calls and the queries, by formulas that any language can
//! restate.
//!
//! Chance comes from one generator. Its state is a 32-bit x; a step is
//!
//! ```text
//! x = (x * 1664525 + 1013904223) mod 2^32
//! ```
//!
//! and `below(limit)` makes a step and gives `(x / 65536) mod limit`, the
//! division being the whole one. Each run and each table's queries start it
//! anew, at the x that is given. Draws are made in the order in which they are
//! written below.

use crate::lines::each;
use model::pages::{entries, page_count};
use model::random::Lcg;
use model::tables::Piece;
use model::Rect;
use std::fmt;

/// A run of place calls from the empty table.
pub struct Run {
    pub name: &'static str,
    pub calls: fn() -> Vec<Piece>,
    /// The unit of the queries that are asked at its end.
    pub unit: u32,
}

pub const RUNS: [Run; 10] = [
    Run {
        name: "rising",
        calls: rising,
        unit: 2_400,
    },
    Run {
        name: "falling",
        calls: falling,
        unit: 2_400,
    },
    Run {
        name: "shuffled",
        calls: shuffled,
        unit: 2_400,
    },
    Run {
        name: "equal",
        calls: equal,
        unit: 1,
    },
    Run {
        name: "strips",
        calls: strips,
        unit: 55_000,
    },
    Run {
        name: "nested",
        calls: nested,
        unit: 55_000,
    },
    Run {
        name: "growing",
        calls: growing,
        unit: 55_000,
    },
    Run {
        name: "spread",
        calls: spread,
        unit: 55_000,
    },
    Run {
        name: "tiny",
        calls: tiny,
        unit: 1,
    },
    Run {
        name: "refused",
        calls: refused,
        unit: 60,
    },
];

/// A grid. Piece c, with x = 900 (c mod 32) and y = 700 (c / 32), stands at
/// (x, y, x + 800, y + 600).
pub fn grid(c: u32) -> Piece {
    let (x, y) = (c % 32 * 900, c / 32 * 700);
    (c, Rect::new(x, y, x + 800, y + 600))
}

/// The grid: c = 0, 1, .. 1023.
fn rising() -> Vec<Piece> {
    (0..1024).map(grid).collect()
}

/// The grid: c = 1023, 1022, .. 0.
fn falling() -> Vec<Piece> {
    (0..1024).rev().map(grid).collect()
}

/// The grid in a shuffled order. The list starts as 0, 1, .. 1023, with x = 1.
/// For i = 1023, 1022, .. 1: the items at i and at below(i + 1) change places.
/// Then the items are placed from the first to the last.
fn shuffled() -> Vec<Piece> {
    let mut lcg = Lcg(1);
    let mut order: Vec<u32> = (0..1024).collect();
    for i in (1..1024).rev() {
        order.swap(i, lcg.below(i as u32 + 1) as usize);
    }
    order.into_iter().map(grid).collect()
}

/// c = 0, 1, .. 1023, all at (5, 5, 10, 10).
fn equal() -> Vec<Piece> {
    (0..1024).map(|c| (c, Rect::new(5, 5, 10, 10))).collect()
}

/// c = 0, 1, .. 1023. An even c at (900 c, 0, 900 c + 1, 1000000), an odd one
/// at (0, 900 c, 1000000, 900 c + 1).
fn strips() -> Vec<Piece> {
    let strip = |c| match c % 2 {
        0 => Rect::new(900 * c, 0, 900 * c + 1, 1_000_000),
        _ => Rect::new(0, 900 * c, 1_000_000, 900 * c + 1),
    };
    (0..1024).map(|c| (c, strip(c))).collect()
}

/// c = 0, 1, .. 1023 at (c, c, 1000000 - c, 1000000 - c).
fn nested() -> Vec<Piece> {
    let within = |c| Rect::new(c, c, 1_000_000 - c, 1_000_000 - c);
    (0..1024).map(|c| (c, within(c))).collect()
}

/// The same pieces as nested, c = 1023, 1022, .. 0.
fn growing() -> Vec<Piece> {
    nested().into_iter().rev().collect()
}

/// c = 0, 1, .. 1023, from x = 2 at the start. For each c four draws:
/// left = 15 below(65536), low = 15 below(65536), width = 1 + below(9999),
/// height = 1 + below(9999).
fn spread() -> Vec<Piece> {
    let mut lcg = Lcg(2);
    let mut rect = || {
        let left = 15 * lcg.below(65_536);
        let low = 15 * lcg.below(65_536);
        let width = 1 + lcg.below(9_999);
        let height = 1 + lcg.below(9_999);
        Rect::new(left, low, left + width, low + height)
    };
    (0..1024).map(|c| (c, rect())).collect()
}

/// c = 0, 1, .. 1023, from x = 3 at the start. For each c four draws:
/// left = below(8), low = below(8), width = 1 + below(4), height = 1 +
/// below(4). The number is (341 c) mod 1024.
fn tiny() -> Vec<Piece> {
    let mut lcg = Lcg(3);
    let mut rect = || {
        let left = lcg.below(8);
        let low = lcg.below(8);
        let width = 1 + lcg.below(4);
        let height = 1 + lcg.below(4);
        Rect::new(left, low, left + width, low + height)
    };
    (0..1024).map(|c| (341 * c % 1024, rect())).collect()
}

/// 3,000 calls, many of them refused, from x = 4 at the start. For each call
/// six draws: number = below(1100), left = below(1000), low = below(1000),
/// width = below(40), height = below(40), fault = below(16). The rectangle is
/// (left, low, left + width, low + height), but x2 is 1000001 if the fault is 0
/// and y2 is 1000001 if it is 1.
fn refused() -> Vec<Piece> {
    let mut lcg = Lcg(4);
    let mut call = || {
        let number = lcg.below(1_100);
        let (left, low) = (lcg.below(1_000), lcg.below(1_000));
        let (width, height) = (lcg.below(40), lcg.below(40));
        let mut rect = Rect::new(left, low, left + width, low + height);
        match lcg.below(16) {
            0 => rect.x2 = 1_000_001,
            1 => rect.y2 = 1_000_001,
            _ => {}
        }
        (number, rect)
    };
    (0..3_000).map(|_| call()).collect()
}

/// A reference and clauses.
pub struct Question {
    pub reference: Rect,
    pub clauses: Vec<u64>,
}

/// ` x1 y1 x2 y2 COUNT CLAUSE..`
impl fmt::Display for Question {
    fn fmt(&self, f: &mut fmt::Formatter<'_>) -> fmt::Result {
        let Rect { x1, y1, x2, y2 } = self.reference;
        write!(f, " {x1} {y1} {x2} {y2} {}", self.clauses.len())?;
        f.write_str(&each(&self.clauses))
    }
}

/// ""Equal" to (80, 0, 85, 5)", asked of the nine pieces.
pub fn example() -> Question {
    Question {
        reference: Rect::new(80, 0, 85, 5),
        clauses: vec![1 << 5],
    }
}

/// The questions q = 0, 1, .. count - 1 that are asked of a table, from x = 5
/// at the start. For each q seven draws: left = unit below(12), low = unit
/// below(12), width = unit (1 + below(6)), height = unit (1 + below(6)), and
/// the relations t, u, v = below(40).
///
/// The reference is (left, low, left + width, low + height); but if q is odd,
/// and page q mod k has an entry, it is the rectangle of that page's first
/// entry.
///
/// The clauses, with T for the set of t alone and so on, and the sets of meet
/// (1), plain north (15), plain east (23) and plain south (31):
///
/// - q mod 5 = 0: T
/// - 1: T or U or V
/// - 2: T, and U
/// - 3: meet or T
/// - 4: plain north or plain east or T, and meet or plain east or plain south
pub fn questions(table: &[u32], unit: u32, count: u32) -> Vec<Question> {
    let mut lcg = Lcg(5);
    (0..count)
        .map(|q| question(table, unit, q, &mut lcg))
        .collect()
}

const MEET: u64 = 1 << 1;
const PLAIN_NORTH: u64 = 1 << 15;
const PLAIN_EAST: u64 = 1 << 23;
const PLAIN_SOUTH: u64 = 1 << 31;

fn question(table: &[u32], unit: u32, q: u32, lcg: &mut Lcg) -> Question {
    let left = unit * lcg.below(12);
    let low = unit * lcg.below(12);
    let width = unit * (1 + lcg.below(6));
    let height = unit * (1 + lcg.below(6));
    let mut relation = || 1_u64 << lcg.below(40);
    let (t, u, v) = (relation(), relation(), relation());
    let drawn = Rect::new(left, low, left + width, low + height);
    let first = entries(table, q % page_count(table)).next();
    Question {
        reference: match first {
            Some(entry) if q % 2 == 1 => entry.rect,
            _ => drawn,
        },
        clauses: match q % 5 {
            0 => vec![t],
            1 => vec![t | u | v],
            2 => vec![t, u],
            3 => vec![MEET | t],
            _ => vec![
                PLAIN_NORTH | PLAIN_EAST | t,
                MEET | PLAIN_EAST | PLAIN_SOUTH,
            ],
        },
    }
}

/// c = fold of (c * 31 + word) mod 2^32, from 0, over all the words.
pub fn checksum(words: &[u32]) -> u32 {
    words
        .iter()
        .fold(0, |c: u32, &word| c.wrapping_mul(31).wrapping_add(word))
}
