//! Clauses and admitted sets.

use crate::{cases, Compared, Outcome};
use model::random::Random;

pub const SEED: u64 = 101;

pub fn clauses(compared: &mut Compared) -> Outcome {
    few_relations(compared)?;
    refused(compared)?;
    any_lists(compared)
}

/// Each relation; each two in one clause and in two; with a third, by chance.
fn few_relations(compared: &mut Compared) -> Outcome {
    compared.case("clauses of one and two relations");
    for t in 0..40 {
        compared.admitted(&[1 << t])?;
        for u in 0..40 {
            compared.admitted(&[1 << t | 1 << u])?;
            compared.admitted(&[1 << t, 1 << u])?;
        }
    }
    Ok(())
}

fn refused(compared: &mut Compared) -> Outcome {
    compared.case("refused clauses");
    for list in cases::refused_clauses() {
        compared.admitted(&list)?;
    }
    Ok(())
}

/// Lists of 0 to 9 and 3,000 clauses: of few bits, of any bits below 40, of
/// any bits, and now and then a zero.
fn any_lists(compared: &mut Compared) -> Outcome {
    let mut random = Random::new(SEED);
    for round in 0..4000 {
        compared.case(format!("clauses, seed {SEED}, round {round}"));
        let length = if random.one_in(50) {
            3000
        } else {
            random.below(10)
        };
        let kind = random.below(4);
        let list: Vec<u64> = (0..length)
            .map(|_| match kind {
                0 => cases::clause(&mut random, 3),
                1 => cases::clause(&mut random, 60),
                2 if random.one_in(5) => random.any() >> random.below(64),
                2 => random.any() >> 24 | 1,
                _ if random.one_in(20) => 0,
                _ => cases::clause(&mut random, 40),
            })
            .collect();
        compared.admitted(&list)?;
    }
    Ok(())
}
