//! Several things wrong in one call: "the first whose condition holds is
//! returned, and none without its condition".

use crate::{cases, Compared, Outcome};
use model::sizes::EDGE;
use model::tables::{build, nine_pieces, pieces_in, placed, Family, Fill, Order};
use model::{random::Random, Rect};

pub const SEED: u64 = 103;

pub fn refusals(compared: &mut Compared) -> Outcome {
    for (name, table) in tables() {
        compared.case(format!("refusals, {name}, seed {SEED}"));
        places(compared, &table)?;
        queries(compared, &table)?;
    }
    Ok(())
}

/// Short, not sound, and sound tables.
fn tables() -> Vec<(&'static str, Vec<u32>)> {
    let random = &mut Random::new(SEED);
    let nine = placed(&nine_pieces());
    let mut short = nine.clone();
    short.pop();
    let mut damaged = nine.clone();
    damaged[2] = 10;
    let mut short_and_damaged = damaged.clone();
    short_and_damaged.pop();
    let full = Family::Tiny.pieces(1024, random);
    vec![
        ("short and not sound", short_and_damaged),
        ("short", short),
        ("not sound", damaged),
        ("nine pieces", nine),
        ("empty", placed(&[])),
        ("full", build(&full, Fill::Least, Order::Shuffled, random)),
    ]
}

const RECTS: [Rect; 5] = [
    Rect::new(80, 0, 85, 5),
    Rect::new(0, 0, EDGE, EDGE),
    Rect::new(80, 0, 80, 5),
    Rect::new(80, 6, 85, 5),
    Rect::new(0, 0, EDGE, EDGE + 1),
];

fn places(compared: &mut Compared, table: &[u32]) -> Outcome {
    for rect in RECTS {
        for number in [
            0,
            8,
            9,
            1022,
            1023,
            1024,
            1025,
            0x400 + 8,
            0x1_0008,
            u32::MAX,
        ] {
            compared.place(&mut table.to_vec(), number, rect)?;
        }
    }
    Ok(())
}

fn queries(compared: &mut Compared, table: &[u32]) -> Outcome {
    let mut lists = cases::refused_clauses();
    lists.extend([vec![1 << 5], vec![1 << 2, 1 << 15], vec![1; 8]]);
    let pieces = match model::check(table) {
        (0, _) => pieces_in(table).len(),
        _ => 9,
    };
    for rect in RECTS {
        for list in &lists {
            for length in [0, pieces.saturating_sub(1), pieces, 1024] {
                compared.query(table, rect, list, length)?;
                compared.opened_pages(table, rect, list, length)?;
            }
        }
    }
    Ok(())
}
