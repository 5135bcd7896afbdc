//! All 169 configurations, for pieces and for pages.

use crate::cases::{at_configuration, REFERENCE};
use crate::{Compared, Outcome};
use model::codes::{configuration, configurations as all_configurations};
use model::random::Random;
use model::relations::belongs;
use model::tables::{build, Fill, Order, Piece};
use model::Rect;
use std::collections::HashSet;

pub const SEED: u64 = 105;

pub fn configurations(compared: &mut Compared) -> Outcome {
    pieces(compared)?;
    pages(compared, 1)?;
    pages(compared, 2)
}

/// The wish that admits the least with (i, j) in it: a clause for each
/// relation that has it, but for disjoint, which has all.
fn tightest(i: u8, j: u8) -> Vec<u64> {
    let clauses: Vec<u64> = (1..40)
        .filter(|&t| belongs(t, i, j))
        .map(|t| 1 << t)
        .collect();
    if clauses.is_empty() {
        vec![1]
    } else {
        clauses
    }
}

/// The tightest wishes and each relation by itself, each one time.
fn wishes() -> Vec<Vec<u64>> {
    let mut wishes: Vec<Vec<u64>> = (0..40).map(|t| vec![1 << t]).collect();
    wishes.extend(all_configurations().map(|(i, j)| tightest(i, j)));
    let mut met = HashSet::new();
    wishes.retain(|wish| met.insert(wish.clone()));
    wishes
}

/// One piece for each configuration to the reference.
fn pieces(compared: &mut Compared) -> Outcome {
    let random = &mut Random::new(SEED);
    let mut list: Vec<Piece> = (300..)
        .zip(all_configurations())
        .map(|(number, (i, j))| (number, at_configuration(i, j)))
        .collect();
    random.shuffle(&mut list);
    let table = build(&list, Fill::Mixed, Order::Shuffled, random);
    compared.case(format!("a piece for each configuration, seed {SEED}"));
    for wish in wishes() {
        let (refusal, hits, _) = compared.query(&table, REFERENCE, &wish, 169)?;
        let (_, _, admitted) = model::admitted(&wish);
        assert_eq!((refusal, hits), (0, admitted));
        compared.opened_pages(&table, REFERENCE, &wish, 169)?;
    }
    Ok(())
}

/// A page for each configuration to the reference, seven in a table, right
/// under the root, which stands at level `top`. (Eight could be split again.)
fn pages(compared: &mut Compared, top: u32) -> Outcome {
    let random = &mut Random::new(SEED);
    let mut all: Vec<(u8, u8)> = all_configurations().collect();
    random.shuffle(&mut all);
    let wishes = wishes();
    let mut met = HashSet::new();
    for (round, seven) in all.chunks(7).enumerate() {
        compared.case(format!(
            "pages at {seven:?}, root at level {top}, seed {SEED}, round {round}"
        ));
        let table = table_of_pages(seven, top, random);
        met.extend(configurations_under_root(&table));
        for wish in &wishes {
            compared.query(&table, REFERENCE, wish, 1024)?;
            compared.opened_pages(&table, REFERENCE, wish, 341)?;
        }
    }
    assert_eq!(met.len(), 169);
    Ok(())
}

/// A table whose root has one entry for each configuration; they are repeated
/// when they are fewer than four.
fn table_of_pages(configurations: &[(u8, u8)], top: u32, random: &mut Random) -> Vec<u32> {
    let mut wanted = configurations.to_vec();
    while wanted.len() < 4 {
        wanted.extend(configurations);
    }
    let leaves_of_each = 4_u32.pow(top - 1);
    let mut list = Vec::new();
    for &(i, j) in &wanted {
        for _ in 0..leaves_of_each {
            list.extend(corners(at_configuration(i, j)));
        }
    }
    let numbered: Vec<Piece> = (0..).zip(list).collect();
    build(&numbered, Fill::Least, Order::RootFirst, random)
}

/// Four small rectangles in the corners: their bounds are the whole.
fn corners(r: Rect) -> [Rect; 4] {
    [
        Rect::new(r.x1, r.y1, r.x1 + 1, r.y1 + 1),
        Rect::new(r.x2 - 1, r.y1, r.x2, r.y1 + 1),
        Rect::new(r.x1, r.y2 - 1, r.x1 + 1, r.y2),
        Rect::new(r.x2 - 1, r.y2 - 1, r.x2, r.y2),
    ]
}

fn configurations_under_root(table: &[u32]) -> Vec<(u8, u8)> {
    model::pages::entries(table, model::pages::root(table))
        .map(|entry| configuration(entry.rect, REFERENCE))
        .collect()
}

#[cfg(test)]
mod tests {
    use super::*;
    use model::clauses::{holds, rows, Rows};
    use model::inside::INSIDE;

    fn opens(sets: &[Vec<u8>], rows: &Rows, (i, j): (u8, u8)) -> bool {
        let set = |code: u8| &sets[usize::from(code - 1)];
        set(i)
            .iter()
            .any(|&a| set(j).iter().any(|&b| holds(rows, a, b)))
    }

    /// One entry of the thirteen sets put in or taken out: whether some wish of
    /// this suite opens another page for it.
    fn seen(page_code: u8, code: u8, wishes: &[Rows]) -> bool {
        let right: Vec<Vec<u8>> = INSIDE.iter().map(|set| set.to_vec()).collect();
        let mut wrong = right.clone();
        let set = &mut wrong[usize::from(page_code - 1)];
        match set.iter().position(|&member| member == code) {
            Some(place) => drop(set.remove(place)),
            None => set.push(code),
        }
        wishes.iter().any(|rows| {
            all_configurations().any(|page| opens(&right, rows, page) != opens(&wrong, rows, page))
        })
    }

    /// A wish that shows a wrong entry admits some configuration with the
    /// entry's code; the tightest wish of that configuration then shows it too.
    /// So what is not seen here, no query can show.
    #[test]
    fn wrong_entries_of_the_thirteen_sets_are_seen() {
        let wishes: Vec<Rows> = wishes().iter().map(|wish| rows(wish)).collect();
        let unseen: Vec<(u8, u8)> = all_configurations()
            .filter(|&(page_code, code)| !seen(page_code, code, &wishes))
            .collect();
        println!("{} entries that no query shows: {unseen:?}", unseen.len());
        assert_eq!(unseen.len(), 26);
    }

    #[test]
    fn tightest_wishes_are_valid() {
        for (i, j) in all_configurations() {
            let wish = tightest(i, j);
            assert_eq!(model::admitted(&wish).0, 0);
            assert!(model::clauses::admits(&wish, i, j));
        }
    }
}
