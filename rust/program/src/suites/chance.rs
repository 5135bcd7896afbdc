//! Jobs by chance, with fixed seeds.

use crate::{random, Compared, Feed, Outcome};

const SEEDS: std::ops::Range<u64> = 1..401;

pub fn random_jobs(compared: &mut Compared) -> Outcome {
    for seed in SEEDS {
        let name = format!("by chance, seed {seed}");
        compared.job(&name, &random::job(seed), &[Feed::Whole])?;
    }
    Ok(())
}

#[cfg(test)]
mod tests {
    use super::*;

    /// Each kind of line, each refusal, and bad jobs occur often enough.
    #[test]
    fn all_kinds_occur() {
        let mut lines: Vec<String> = Vec::new();
        for seed in SEEDS {
            let output = String::from_utf8(model::job(&random::job(seed))).unwrap();
            lines.extend(output.lines().map(String::from));
        }
        let refused = |letter: &str, refusal: &str| {
            let named = |line: &&String| line.starts_with(letter) && line.ends_with(refusal);
            lines.iter().filter(named).count()
        };
        for (letter, refusal) in [("P", " 2"), ("P", " 3"), ("P", " 7")] {
            assert!(refused(letter, refusal) > 300, "{letter}{refusal}");
        }
        for (letter, refusal) in [("R", " 2"), ("R", " 4"), ("R", " 5")] {
            assert!(refused(letter, refusal) > 100, "{letter}{refusal}");
        }
        assert!(refused("Q", "") > 1_000);
        assert!(refused("bad job", "") > 30);
    }
}
