//! Jobs: bytes for the program's standard input.

use crate::formulas::{grid, questions, RUNS};
use model::tables::{placed, Piece};
use model::Rect;
use std::path::Path;

/// A reference and clauses.
pub type Query = (Rect, Vec<u64>);

/// A job's words, from its pieces and queries.
pub fn words(pieces: &[Piece], queries: &[Query]) -> Vec<u32> {
    let mut words = vec![pieces.len() as u32];
    for (number, r) in pieces {
        words.extend([*number, r.x1, r.y1, r.x2, r.y2]);
    }
    words.push(queries.len() as u32);
    for (r, clauses) in queries {
        words.extend([r.x1, r.y1, r.x2, r.y2, clauses.len() as u32]);
        for clause in clauses {
            words.extend([*clause as u32, (clause >> 32) as u32]);
        }
    }
    words
}

pub fn bytes(words: &[u32]) -> Vec<u8> {
    words.iter().flat_map(|word| word.to_le_bytes()).collect()
}

/// All jobs by their names.
pub fn all() -> Vec<(String, Vec<u8>)> {
    let mut jobs: Vec<(String, Vec<u8>)> = small()
        .into_iter()
        .chain(large())
        .map(|(name, words)| (name.to_string(), bytes(&words)))
        .collect();
    let full = bytes(&full());
    let longer = |more: &[u8]| [&full, more].concat();
    jobs.push(("no-bytes".into(), vec![]));
    jobs.push(("three-bytes".into(), vec![0; 3]));
    jobs.push(("nine-bytes".into(), vec![0; 9]));
    jobs.push(("65537-bytes".into(), longer(&[0])));
    jobs.push(("65540-bytes".into(), longer(&[0; 4])));
    jobs.push(("65535-bytes".into(), full[..65_535].to_vec()));
    jobs.push(("65536-bytes".into(), full));
    jobs.extend(
        RUNS.iter()
            .map(|run| (run.name.into(), bytes(&run_job(run.name)))),
    );
    jobs
}

/// A well-formed job of exactly 65,536 bytes.
fn full() -> Vec<u32> {
    let piece = (5, Rect::new(0, 0, 10, 10));
    words(&vec![piece; 3_275], &[(piece.1, vec![32])])
}

fn small() -> Vec<(&'static str, Vec<u32>)> {
    let square = Rect::new(0, 0, 10, 10);
    let flat = Rect::new(0, 5, 10, 5);
    let pieces = [
        (1024, square),
        (7, flat),
        (7, square),
        (7, square),
        (1024, flat),
    ];
    let queries = [
        (square, vec![]),
        (flat, vec![]),
        (square, vec![0]),
        (square, vec![1, 1 << 40]),
        (square, vec![1; 9]),
        (square, vec![1 << 5, 1 << 7]),
        (square, vec![1; 8]),
    ];
    vec![
        (
            "example",
            vec![1, 5, 0, 0, 10, 10, 1, 0, 0, 10, 10, 1, 32, 0],
        ),
        ("two-empty-sections", vec![0, 0]),
        ("nothing-found", words(&[], &[(square, vec![32])])),
        ("refused-each-way", words(&pieces, &queries)),
        ("one-count", vec![0]),
        ("a-word-more", vec![0, 0, 0]),
        ("half-a-piece", vec![1, 5, 0, 0]),
        ("half-a-query", vec![0, 1, 0, 0, 10, 10]),
        ("half-a-clause", vec![0, 1, 0, 0, 10, 10, 1, 32]),
        ("a-clause-missing", vec![0, 1, 0, 0, 10, 10, 2, 32, 0]),
        ("pieces-max", vec![u32::MAX, 0]),
        // 5 times this is 4 more than 2^32.
        ("pieces-wrap", vec![0x3333_3334, 5, 0, 0, 10, 0]),
        ("queries-max", vec![0, u32::MAX]),
        ("queries-wrap", vec![0, 0x3333_3334, 0, 0, 10, 10]),
        ("clauses-max", vec![0, 1, 0, 0, 1, 1, u32::MAX]),
        ("clauses-wrap", vec![0, 1, 0, 0, 1, 1, 0x8000_0000]),
        (
            "clauses-wrap-to-one",
            vec![0, 1, 0, 0, 1, 1, 0x8000_0001, 32, 0],
        ),
    ]
}

/// Jobs whose lines fill a buffer many times, named as `crates/job_runs/data`
/// names the files that hold them.
pub fn large() -> Vec<(&'static str, Vec<u32>)> {
    vec![
        ("many_refused_pieces", many_refused_pieces()),
        ("full_listings", full_listings()),
        ("many_refused_queries", many_refused_queries()),
    ]
}

/// c = 0, 1, .. 3059: every twelfth stands, as piece c / 12 of the grid; the
/// others are refused by 7, 3 and 2 in turn. Then 150 queries about the pieces
/// of the grid in turn: every fifth asks for plain east, the others for all.
fn many_refused_pieces() -> Vec<u32> {
    let piece = |c: u32| match (c % 12, c % 3) {
        (0, _) => grid(c / 12),
        (_, 0) => (0, grid(c % 1_024).1),
        (_, 1) => (1_024 + c, grid(c % 1_024).1),
        _ => (c % 1_024, Rect::new(c, c, c, c + 1)),
    };
    let query = |q: u32| match q % 5 {
        4 => (grid(q).1, vec![1 << 23]),
        _ => (grid(q).1, vec![1]),
    };
    let pieces: Vec<Piece> = (0..3_060).map(piece).collect();
    words(&pieces, &(0..150).map(query).collect::<Vec<Query>>())
}

/// The grid of 1,024 pieces, and 40 queries about its first ones: every tenth
/// has no clause, the others ask for all.
fn full_listings() -> Vec<u32> {
    let query = |q: u32| match q % 10 {
        9 => (grid(q).1, vec![]),
        _ => (grid(q).1, vec![1]),
    };
    let pieces: Vec<Piece> = (0..1_024).map(grid).collect();
    words(&pieces, &(0..40).map(query).collect::<Vec<Query>>())
}

/// As many queries as a job can have, all without a clause; the reference of
/// every third is not valid either.
fn many_refused_queries() -> Vec<u32> {
    let query = |q: u32| match q % 3 {
        0 => (Rect::new(q, q, q, q + 1), vec![]),
        _ => (Rect::new(q, q, q + 1, q + 1), vec![]),
    };
    words(&[], &(0..3_276).map(query).collect::<Vec<Query>>())
}

/// The calls of a run and its ten queries.
fn run_job(name: &str) -> Vec<u32> {
    let run = RUNS.iter().find(|run| run.name == name).expect("a run");
    let calls = (run.calls)();
    let table = placed(&calls);
    let queries: Vec<Query> = questions(&table, run.unit, 10)
        .into_iter()
        .map(|question| (question.reference, question.clauses))
        .collect();
    words(&calls, &queries)
}

pub fn names() -> String {
    all().into_iter().map(|(name, _)| name + "\n").collect()
}

pub fn find(name: &str) -> Option<Vec<u8>> {
    all().into_iter().find(|job| job.0 == name).map(|job| job.1)
}

/// Each job's name, a file of the folder, and what the job program prints for
/// its bytes.
pub fn answers(folder: &Path, names: &[&str]) -> Vec<u8> {
    let answer = |name: &&str| {
        let bytes = std::fs::read(folder.join(name));
        let printed = model::job(&bytes.unwrap_or_else(|error| panic!("{name}: {error}")));
        [name.as_bytes(), b"\n", &printed].concat()
    };
    names.iter().flat_map(answer).collect()
}

#[cfg(test)]
mod tests {
    use super::*;

    fn printed(jobs: &[(String, Vec<u8>)], name: &str) -> String {
        let (_, bytes) = jobs.iter().find(|job| job.0 == name).unwrap();
        String::from_utf8(model::job(bytes)).unwrap()
    }

    #[test]
    fn good_and_bad_jobs() {
        let jobs = all();
        let good = [
            "example",
            "two-empty-sections",
            "nothing-found",
            "refused-each-way",
        ];
        for (name, _) in small() {
            let is_bad = printed(&jobs, name) == "bad job\n";
            assert_eq!(is_bad, !good.contains(&name), "{name}");
        }
        assert_eq!(printed(&jobs, "example"), "Q 0 1 1 5\n");
        assert_eq!(printed(&jobs, "65537-bytes"), "bad job\n");
        assert_eq!(printed(&jobs, "65535-bytes"), "bad job\n");
        assert!(printed(&jobs, "65536-bytes").ends_with("P 3274 7\nQ 0 1 1 5\n"));
    }

    /// Each prints more than a buffer of 16,384 bytes holds.
    #[test]
    fn large_jobs_print_much() {
        let jobs = all();
        let of = |name, letter| {
            let output = printed(&jobs, name);
            let lines = output.lines().filter(|line| line.starts_with(letter));
            lines.map(|line| line.len() + 1).sum::<usize>()
        };
        assert!(of("many_refused_pieces", 'P') > 24_000);
        assert!(of("many_refused_pieces", 'Q') > 120_000);
        assert!(of("full_listings", 'Q') > 128 * 1024);
        assert_eq!(of("full_listings", 'R'), 4 * 7 - 1);
        assert!(of("many_refused_queries", 'R') > 28_000);
    }

    #[test]
    fn runs_are_jobs() {
        let jobs = all();
        for run in &RUNS {
            let output = printed(&jobs, run.name);
            let accepted = output.lines().filter(|line| line.starts_with('Q'));
            assert_eq!(accepted.count(), 10);
        }
    }
}
