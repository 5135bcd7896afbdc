//! What the program crate `relations_examples` prints, from the model. The file
//! `crates/relations_examples/stdout` is this text.

use crate::lines::each;
use model::clauses::{holds, rows, Rows};
use model::codes::{configuration, configurations};
use model::inside::{may_hold, INSIDE};
use model::{admitted, Rect};

/// The reference of the paper's examples.
const REFERENCE: Rect = Rect::new(100, 100, 200, 200);

const EQUAL: u64 = 1 << 5;
const CONTAINS: u64 = 1 << 7;
const STRONG_CORNER_NORTH: u64 = 1 << 12;
const NORTH: u64 = 1 << 15;

pub fn output() -> String {
    let mut lines: String = EXAMPLES.into_iter().map(configuration_line).collect();
    for (name, clauses) in wishes().into_iter().chain(refused()) {
        lines += &wish_line(name, &clauses);
    }
    lines.extend((0..40).map(relation_line));
    for (name, clauses, page) in PAGES {
        lines += &page_line(name, clauses, page);
    }
    lines + &format!("node sets:{}\n", each(&INSIDE.map(as_bits)))
}

/// The starred examples first.
const EXAMPLES: [Rect; 13] = [
    Rect::new(250, 250, 300, 300),
    Rect::new(200, 100, 300, 200),
    Rect::new(100, 100, 200, 200),
    Rect::new(50, 50, 250, 250),
    Rect::new(120, 150, 180, 250),
    Rect::new(100, 120, 250, 180),
    Rect::new(100, 100, 200, 250),
    Rect::new(100, 100, 200, 150),
    Rect::new(0, 1, 50, 99),
    Rect::new(0, 50, 100, 100),
    Rect::new(50, 0, 150, 200),
    Rect::new(150, 150, 200, 200),
    Rect::new(150, 200, 250, 300),
];

/// configuration x1 y1 x2 y2: i j
fn configuration_line(p: Rect) -> String {
    let (i, j) = configuration(p, REFERENCE);
    let Rect { x1, y1, x2, y2 } = p;
    format!("configuration {x1} {y1} {x2} {y2}: {i} {j}\n")
}

type Wish = (&'static str, Vec<u64>);

fn wishes() -> Vec<Wish> {
    vec![
        ("overlap and north", vec![4, NORTH]),
        ("weak corner north", vec![1 << 13]),
        ("equal and contains", vec![EQUAL, CONTAINS]),
        ("equal or contains", vec![EQUAL | CONTAINS]),
        ("disjoint", vec![1]),
        ("meet", vec![2]),
        ("overlap", vec![4]),
        ("covered_by", vec![8]),
        ("covers", vec![64]),
        ("every relation", vec![(1 << 40) - 1]),
        ("overlap, and north or east", vec![4, NORTH | 1 << 23]),
    ]
}

/// Lists at the edge of refusals 4 and 5, most of them beyond it.
fn refused() -> Vec<Wish> {
    vec![
        ("no clause", vec![]),
        ("eight clauses", vec![1, 1, 1, 1, 1, 1, 1, 4]),
        ("nine clauses", vec![1; 9]),
        ("nine clauses, all zero", vec![0; 9]),
        ("5000 clauses", vec![1; 5000]),
        ("zero clause", vec![0]),
        ("zero clause last", vec![4, 0]),
        ("bit 39", vec![1 << 39]),
        ("bit 40", vec![1 << 40]),
        ("bit 63", vec![1 << 63]),
        ("bit 40 and bit 0", vec![1, 1 << 40 | 1]),
    ]
}

/// NAME: REFUSAL COUNT ROW..
fn wish_line(name: &str, clauses: &[u64]) -> String {
    let (refusal, rows, count) = admitted(clauses);
    format!("{name}: {refusal} {count}{}\n", each(&rows))
}

/// relation t: COUNT LEAVES PAGES: its size, the configurations that a leaf's
/// entries are admitted at, and those that a page is opened at.
fn relation_line(t: u32) -> String {
    let (_, rows, count) = admitted(&[1 << t]);
    let leaves = configurations().filter(|&(i, j)| holds(&rows, i, j));
    let pages = configurations().filter(|&codes| may_hold(&rows, codes));
    format!(
        "relation {t}: {count} {} {}\n",
        leaves.count(),
        pages.count()
    )
}

const EQUAL_OR_CORNER: &[u64] = &[EQUAL | STRONG_CORNER_NORTH];
const INSIDE_ONLY: &[u64] = &[1 << 4];

/// Pages of which the second is a slip of this trade: "Testing y and x apart".
const PAGES: [(&str, &[u64], Rect); 7] = [
    (
        "equal and contains",
        &[EQUAL, CONTAINS],
        Rect::new(0, 0, 1000, 1000),
    ),
    (
        "equal or strong corner",
        EQUAL_OR_CORNER,
        Rect::new(100, 250, 200, 300),
    ),
    (
        "equal or strong corner",
        EQUAL_OR_CORNER,
        Rect::new(100, 100, 200, 200),
    ),
    (
        "equal or strong corner",
        EQUAL_OR_CORNER,
        Rect::new(250, 250, 300, 300),
    ),
    ("inside", INSIDE_ONLY, Rect::new(150, 150, 151, 151)),
    ("inside", INSIDE_ONLY, Rect::new(100, 100, 101, 101)),
    ("inside", INSIDE_ONLY, Rect::new(0, 0, 100, 100)),
];

/// NAME: i j OPENED, with 1 for a page that is opened
fn page_line(name: &str, clauses: &[u64], page: Rect) -> String {
    let rows: Rows = rows(clauses);
    let (i, j) = configuration(page, REFERENCE);
    let opened = u32::from(may_hold(&rows, (i, j)));
    format!("{name}: {i} {j} {opened}\n")
}

/// A set of codes, bit c - 1 for code c.
fn as_bits(codes: &[u8]) -> u16 {
    codes.iter().fold(0, |set, code| set | 1 << (code - 1))
}
