//! The lines that are printed.

use crate::formulas::{checksum, example, questions, Question, Run, RUNS};
use crate::named::{self, Named};
use model::{check as check_call, empty, front, opened_pages, place as place_call, query as ask};
use model::{PAGES, PIECES, TABLE_WORDS};
use std::fmt::Display;

pub fn check() -> String {
    let line = |table: Named| {
        let (refusal, pieces) = check_call(&table.words);
        format!("{} {refusal} {pieces}\n", table.name)
    };
    named::all().into_iter().map(line).collect()
}

pub fn names() -> String {
    let line = |table: Named| format!("{} {}\n", table.name, table.base);
    named::all().into_iter().map(line).collect()
}

/// The tables that are queried, each with the unit of its questions.
const QUERIED: [(&str, u32); 15] = [
    ("empty", 1),
    ("nine", 5),
    ("leaf-root-1", 1),
    ("leaf-root-5", 400),
    ("leaf-root-8", 1),
    ("two-leaves-of-4", 1),
    ("three-levels", 2_400),
    ("twins", 3),
    ("least-fill-spread-100", 55_000),
    ("most-fill-tiny-100", 1),
    ("mixed-fill-edges-300", 55_000),
    ("five-levels-least", 2_400),
    ("full-341-pages", 55_000),
    ("full-most-fill", 55_000),
    ("full-mixed-fill", 55_000),
];

pub fn query() -> String {
    let tables = named::all();
    let mut lines = String::new();
    for (name, unit) in QUERIED {
        let table = tables.iter().find(|table| table.name == name);
        let words = &table.expect("a sample of this name").words;
        if name == "nine" {
            lines += &question_line(name, words, &example());
        }
        for question in questions(words, unit, 20) {
            lines += &question_line(name, words, &question);
        }
    }
    lines
}

/// NAME x1 y1 x2 y2 COUNT CLAUSE.. | REFUSAL HITS OPENED | NUMBER.. | PAGE..
fn question_line(name: &str, table: &[u32], question: &Question) -> String {
    let Question { reference, clauses } = question;
    let mut answer = [0; PIECES];
    let (refusal, hits, opened) = ask(table, *reference, clauses, &mut answer);
    let (_, pages) = rising_pages(table, question, &mut [0; PAGES]);
    let mut line = format!("{name}{question} | {refusal} {hits} {opened} |");
    line += &each(front(&answer, hits as usize));
    line += " |";
    line += &each(&pages);
    line + "\n"
}

/// The refusal of the opened-pages call, and the pages rising, since "Their
/// order is free".
pub fn rising_pages(table: &[u32], question: &Question, answer: &mut [u16]) -> (u32, Vec<u16>) {
    let Question { reference, clauses } = question;
    let (refusal, count) = opened_pages(table, *reference, clauses, answer);
    let mut pages = front(answer, count as usize).to_vec();
    pages.sort_unstable();
    (refusal, pages)
}

/// Numbers with one space before each.
pub fn each<T: Display>(numbers: &[T]) -> String {
    numbers.iter().map(|number| format!(" {number}")).collect()
}

/// After how many calls a checksum is printed, beside the last.
const STOPS: [usize; 7] = [1, 8, 9, 10, 33, 100, 500];

pub fn place() -> String {
    let mut lines = String::new();
    for run in &RUNS {
        let (run_lines, table) = run_lines(run);
        lines += &run_lines;
        for question in questions(&table, run.unit, 10) {
            lines += &question_line(run.name, &table, &question);
        }
    }
    lines
}

/// For each run:
///
/// ```text
/// run NAME CALLS
/// after CALLS CHECKSUM                (at some stops)
/// refusals CHECKSUM ACCEPTED n2 n3 n7 (all the returned numbers, and how many of each)
/// end k ROOT PIECES CHECKSUM
/// ```
///
/// With the table at its end.
pub fn run_lines(run: &Run) -> (String, Vec<u32>) {
    let calls = (run.calls)();
    let mut lines = format!("run {} {}\n", run.name, calls.len());
    let mut table = vec![0; TABLE_WORDS];
    empty(&mut table);
    let mut returned = Vec::new();
    for &(number, rect) in &calls {
        returned.push(place_call(&mut table, number, rect));
        if STOPS.contains(&returned.len()) {
            lines += &format!("after {} {}\n", returned.len(), checksum(&table));
        }
    }
    let times = [0, 2, 3, 7].map(|number| returned.iter().filter(|&&r| r == number).count());
    lines += &format!("refusals {}{}\n", checksum(&returned), each(&times));
    lines += &format!("end{} {}\n", each(&table[..3]), checksum(&table));
    (lines, table)
}

pub fn calls(run: &Run) -> String {
    (run.calls)()
        .into_iter()
        .map(|(number, r)| format!("{number} {} {} {} {}\n", r.x1, r.y1, r.x2, r.y2))
        .collect()
}

pub fn words(words: &[u32]) -> String {
    not_zero(words)
        .map(|(index, value)| format!("{index} {value}\n"))
        .collect()
}

fn not_zero(words: &[u32]) -> impl Iterator<Item = (usize, u32)> + '_ {
    words.iter().copied().enumerate().filter(|pair| pair.1 != 0)
}

/// The words in which a table differs from its base; a word that only one of
/// them has differs.
pub fn changes(table: &Named) -> String {
    let base = named::find(&table.base).expect("the base is a table").words;
    (0..table.words.len().max(base.len()))
        .filter(|&index| table.words.get(index) != base.get(index))
        .map(|index| match table.words.get(index) {
            Some(value) => format!("{index} {value}\n"),
            None => format!("{index} none\n"),
        })
        .collect()
}

/// The words that are not zero, four pairs in a line, to stand between the
/// brackets of an array.
pub fn list(table: &Named) -> String {
    let pairs: Vec<(usize, u32)> = not_zero(&table.words).collect();
    let (name, numbers) = (&table.name, 2 * pairs.len());
    let mut lines = format!("// {name}: {numbers} numbers, each index before its value\n");
    for four in pairs.chunks(4) {
        let fields: Vec<String> = four.iter().map(|(i, v)| format!("{i}, {v},")).collect();
        lines += &format!("{}\n", fields.join(" "));
    }
    lines
}

#[cfg(test)]
mod tests {
    use super::*;

    #[test]
    fn the_example_of_nine_pieces_is_among_the_queries() {
        let expected = "nine 80 0 85 5 1 32 | 0 1 2 | 8 | 1 2";
        assert!(query().lines().any(|line| line == expected));
    }

    #[test]
    fn every_query_is_accepted() {
        for line in query().lines() {
            let fields: Vec<&str> = line.split('|').collect();
            assert!(fields[1].starts_with(" 0 "), "{line}");
        }
    }

    #[test]
    fn runs_fill_the_table() {
        for run in &RUNS {
            let (lines, _) = run_lines(run);
            let end = lines.lines().find(|line| line.starts_with("end ")).unwrap();
            let pieces: u32 = end.split(' ').nth(3).unwrap().parse().unwrap();
            assert!(pieces > 900, "{}: {end}", run.name);
        }
    }

    #[test]
    fn a_table_is_its_words() {
        let nine = named::find("nine").unwrap();
        let mut table = vec![0; TABLE_WORDS];
        for line in words(&nine.words).lines() {
            let (index, value) = line.split_once(' ').unwrap();
            table[index.parse::<usize>().unwrap()] = value.parse().unwrap();
        }
        assert_eq!(table, nine.words);
    }
}
