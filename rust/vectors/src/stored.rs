//! What the program crates `check_examples`, `placing_examples` and
//! `history_examples` read and print. The files beside them are this text:
//!
//! ```text
//! vectors check-input     crates/check_examples/stdin
//! vectors check-output    crates/check_examples/stdout
//! vectors placing-output  crates/placing_examples/stdout
//! vectors history-output  crates/history_examples/stdout
//! ```

use crate::formulas::{checksum, example, questions, Question, RUNS};
use crate::lines::{each, run_lines};
use crate::named::{self, Named};
use model::pages::first_word;
use model::sizes::PAGE_WORDS;
use model::tables::{nine_pieces, Piece};
use model::{check, empty, front, place, query, Rect, PIECES, TABLE_WORDS};

/// The tables of `check_examples`: some sound ones, and one or more for each
/// way to be unsound.
const CHECKED: [&str; 69] = [
    "no-words",
    "zeros",
    "zeros-one-word-short",
    "zeros-words-after",
    "empty",
    "empty/k-zero",
    "empty/k-one-more",
    "empty/count-one-more",
    "empty/leaf-first-word-after-entries",
    "leaf-root-5",
    "leaf-root-5/piece-y1-above-y2",
    "leaf-root-5/leaf-last-word",
    "leaf-root-8",
    "leaf-root-8/first-word-after-pages",
    "nine",
    "nine-one-word-short",
    "nine-words-after",
    "nine/k-zero",
    "nine/k-342",
    "nine/root-at-k",
    "nine/root-max",
    "nine/count-zero",
    "nine/leaf-level-1",
    "nine/root-level-5",
    "nine/leaf-n-9",
    "nine/leaf-n-max",
    "nine/root-n-max",
    "nine/r-at-k",
    "nine/r-the-root",
    "nine/leaf-with-3-entries",
    "nine/root-r-after-entries",
    "nine/last-word-of-table",
    "three-levels",
    "three-levels/count-one-less",
    "three-levels/above-n-9",
    "three-levels/r-max",
    "three-levels/r-wraps",
    "three-levels/number-1024",
    "three-levels/number-twice-in-a-leaf",
    "three-levels/number-twice-in-two-leaves",
    "three-levels/bound-x2-less",
    "three-levels/bound-y2-more",
    "three-levels/piece-x1-is-x2",
    "three-levels/piece-x2-beyond-edge",
    "three-levels/piece-all-beyond-edge",
    "twins",
    "twins/page-named-twice-in-a-page",
    "twins/page-named-twice-in-two-pages",
    "twins/root-named",
    "hand-made/page-named-twice",
    "hand-made/page-never-named",
    "hand-made/island-beside-leaf-root",
    "hand-made/island-of-empty-page",
    "hand-made/root-level-1-with-0-entries",
    "hand-made/root-level-1-with-1-entry",
    "hand-made/page-with-3-entries-above-leaves",
    "hand-made/child-two-levels-below",
    "hand-made/all-one-level-too-high",
    "full-341-pages",
    "full-341-pages/k-342",
    "full-341-pages/last-page-n-9",
    "full-341-pages/root-bound-x1-less",
    "full-341-pages/root-bound-x1-more",
    "full-341-pages/root-bound-y1-less",
    "full-341-pages/root-bound-y1-more",
    "full-341-pages/root-bound-x2-less",
    "full-341-pages/root-bound-x2-more",
    "full-341-pages/root-bound-y2-less",
    "full-341-pages/root-bound-y2-more",
];

fn checked() -> Vec<Named> {
    let all = named::all();
    let of = |name: &&str| all.iter().find(|table| table.name == *name).cloned();
    CHECKED
        .iter()
        .map(|name| of(name).expect("a table"))
        .collect()
}

/// The number of tables, then for each table a line: its name, how many words
/// it has, and how many runs of its words differ from those that the table
/// before it left (zeros before the first). For each run a line follows: its
/// first index, its size and its words.
pub fn check_input() -> String {
    let mut left = vec![0; TABLE_WORDS + 2];
    let mut lines = format!("{}\n", CHECKED.len());
    for table in checked() {
        let words = &table.words;
        let runs = runs_that_differ(words, &left);
        lines += &format!("{} {} {}\n", table.name, words.len(), runs.len());
        for run in runs {
            let numbers = each(&words[run.clone()]);
            lines += &format!("{} {}{numbers}\n", run.start, run.len());
        }
        left[..words.len()].copy_from_slice(words);
    }
    lines
}

fn runs_that_differ(words: &[u32], left: &[u32]) -> Vec<std::ops::Range<usize>> {
    let mut runs: Vec<std::ops::Range<usize>> = Vec::new();
    for index in (0..words.len()).filter(|&index| words[index] != left[index]) {
        match runs.last_mut() {
            Some(run) if run.end == index => run.end += 1,
            _ => runs.push(index..index + 1),
        }
    }
    runs
}

/// NAME REFUSAL PIECES
pub fn check_output() -> String {
    let line = |table: Named| {
        let (refusal, pieces) = check(&table.words);
        format!("{} {refusal} {pieces}\n", table.name)
    };
    checked().into_iter().map(line).collect()
}

/// Nine pieces, then single calls.
pub fn placing_output() -> String {
    let mut answer = vec![0; PIECES];
    let mut table = vec![0; TABLE_WORDS];
    empty(&mut table);
    let mut lines = nine_lines(&mut table, &mut answer);
    lines += &call_lines(&mut table);
    lines + &stopped_lines(&mut table)
}

/// The runs, with queries at the end of each. The answer slice is the same in
/// all queries and starts as zeros.
pub fn history_output() -> String {
    let mut answer = vec![0; PIECES];
    let mut lines = String::new();
    for run in &RUNS {
        let (run_lines, table) = run_lines(run);
        lines += &run_lines;
        for question in questions(&table, run.unit, 10) {
            lines += &format!("{}{}", run.name, asked(&table, &question, &mut answer));
        }
    }
    lines
}

/// "Pieces 0 to 8, piece c at (10c, 0, 10c + 5, 5), placed in order"
fn nine_lines(table: &mut [u32], answer: &mut [u16]) -> String {
    let returned: Vec<u32> = nine_pieces()
        .into_iter()
        .map(|(number, rect)| place(table, number, rect))
        .collect();
    let mut lines = format!("nine{}\n", each(&returned));
    lines += &format!("head{}\n", each(&table[..3]));
    for page in 0..3 {
        let words = &table[first_word(page)..][..PAGE_WORDS];
        lines += &format!("page {page} |{}\n", each(words));
    }
    lines + "equal" + &asked(table, &example(), answer)
}

/// ` x1 y1 x2 y2 COUNT CLAUSE.. | REFUSAL HITS OPENED CHECKSUM | NUMBER..`, the
/// checksum that of all words of the answer slice, the numbers at most 24.
fn asked(table: &[u32], question: &Question, answer: &mut [u16]) -> String {
    let Question { reference, clauses } = question;
    let (refusal, hits, opened) = query(table, *reference, clauses, answer);
    let sum = checksum(&answer.iter().copied().map(u32::from).collect::<Vec<u32>>());
    let listed = front(answer, hits.min(24) as usize);
    format!(
        "{question} | {refusal} {hits} {opened} {sum} |{}\n",
        each(listed)
    )
}

/// "Valid: edge 1,000,000, number 1,023. Refused: edge 1,000,001, x1 = x2,
/// number 1,024", a number that stands, and which refusal comes first.
const CALLS: [Piece; 13] = [
    (1_023, Rect::new(999_999, 0, 1_000_000, 1_000_000)),
    (1_022, Rect::new(0, 0, 1_000_000, 1)),
    (1_021, Rect::new(0, 0, 1_000_001, 10)),
    (1_021, Rect::new(0, 0, 10, 1_000_001)),
    (1_021, Rect::new(10, 0, 10, 10)),
    (1_021, Rect::new(0, 10, 10, 10)),
    (1_021, Rect::new(0, u32::MAX, 10, 10)),
    (1_024, Rect::new(0, 0, 10, 10)),
    (u32::MAX, Rect::new(0, 0, 10, 10)),
    (1_023, Rect::new(0, 0, 10, 10)),
    (8, Rect::new(80, 0, 85, 5)),
    (1_024, Rect::new(10, 0, 10, 10)),
    (8, Rect::new(10, 0, 10, 10)),
];

/// place NUMBER x1 y1 x2 y2 | REFUSAL PIECES CHECKSUM
fn call_lines(table: &mut [u32]) -> String {
    let mut line = |(number, rect): Piece| {
        let refusal = place(table, number, rect);
        let Rect { x1, y1, x2, y2 } = rect;
        let (pieces, sum) = (table[2], checksum(table));
        format!("place {number} {x1} {y1} {x2} {y2} | {refusal} {pieces} {sum}\n")
    };
    CALLS.into_iter().map(&mut line).collect()
}

/// A slice one word short, then a table that is not sound, then empty again.
/// The rectangle and the number are wrong too.
fn stopped_lines(table: &mut [u32]) -> String {
    let short = &mut vec![0; TABLE_WORDS - 1][..];
    let mut lines = format!("short empty {}\n", empty(short));
    lines += &wrong_lines("short", short);
    table[0] = 0;
    lines += &wrong_lines("unsound", table);
    lines += &format!("empty {}", empty(table));
    lines + &format!("{} {}\n", each(&table[..3]), checksum(table))
}

fn wrong_lines(name: &str, table: &mut [u32]) -> String {
    let refusal = place(table, 1_024, Rect::new(10, 0, 10, 10));
    format!("{name} place {refusal}\nleft {}\n", checksum(table))
}

#[cfg(test)]
mod tests {
    use super::*;

    /// The lines read back as the program reads them.
    #[test]
    fn the_input_holds_the_tables() {
        let input = check_input();
        let mut fields = input.split_whitespace();
        let mut number = |name: &mut String| {
            *name = fields.next().unwrap().to_string();
            name.parse::<usize>().unwrap_or(usize::MAX)
        };
        let mut name = String::new();
        assert_eq!(number(&mut name), CHECKED.len());
        let mut left = vec![0; TABLE_WORDS + 2];
        for table in checked() {
            number(&mut name);
            assert_eq!(name, table.name);
            let length = number(&mut name);
            for _ in 0..number(&mut name) {
                let first = number(&mut name);
                let end = first + number(&mut name);
                for word in &mut left[first..end] {
                    *word = number(&mut name) as u32;
                }
            }
            assert_eq!(left[..length], table.words);
        }
        assert!(fields.next().is_none());
    }

    #[test]
    fn the_input_fits_the_program() {
        assert!(check_input().len() <= 65_536);
    }

    #[test]
    fn the_examples_are_printed() {
        let output = placing_output();
        for line in [
            "head 3 2 9",
            "page 0 | 0 4 0 0 5 5 0 10 0 15 5 1 20 0 25 5 2 30 0 35 5 3 0 0 0 0 0 0 0 0 0 0 0 0 0 0 0 0 0 0 0 0",
        ] {
            assert!(output.lines().any(|other| other == line), "{line}");
        }
        let equal = output
            .lines()
            .find(|line| line.starts_with("equal "))
            .unwrap();
        assert!(
            equal.starts_with("equal 80 0 85 5 1 32 | 0 1 2 "),
            "{equal}"
        );
        assert!(equal.ends_with(" | 8"), "{equal}");
    }
}
