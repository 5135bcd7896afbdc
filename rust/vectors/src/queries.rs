//! What the program crate `query_examples` prints, from the model. The file
//! `crates/query_examples/stdout` is this text.

use crate::formulas::{example, questions, Question};
use crate::lines::{each, rising_pages};
use crate::named;
use model::{front, query, Rect, PIECES, TABLE_WORDS};

/// What the answer slice holds before each call.
const BLANK: u16 = 7;

pub fn output() -> String {
    let words = |name| named::find(name).expect("a table of this name").words;
    let (nine, three, empty) = (words("nine"), words("three-levels"), words("empty"));
    let mut lines = asked("nine", &nine, &of_nine(&nine), PIECES);
    lines += &asked("three-levels", &three, &of_three_levels(&three), PIECES);
    lines += &asked("refused", &nine, &refused(), PIECES);
    lines += &asked("unsound", &words("zeros"), &some(), PIECES);
    lines += &asked("short-table", &nine[..TABLE_WORDS - 1], &some(), PIECES);
    for (name, table, room) in [
        ("nine-words", &nine, 9),
        ("eight-words", &nine, 8),
        ("three-words", &nine, 3),
        ("two-words", &nine, 2),
        ("empty-one-word", &empty, 1),
        ("empty-no-word", &empty, 0),
    ] {
        lines += &asked(name, table, &some(), room);
    }
    lines.extend(FRONT_COUNTS.map(front_line));
    lines
}

/// The paper's question, and some of those that `vectors query` asks.
fn of_nine(table: &[u32]) -> Vec<Question> {
    let mut list = vec![example()];
    list.extend(picked(table, 5, &[0, 1, 2, 4, 8, 9, 14, 16, 17]));
    list
}

fn of_three_levels(table: &[u32]) -> Vec<Question> {
    picked(table, 2_400, &[1, 3, 4, 6, 8, 11, 13, 14, 15, 16, 17, 19])
}

/// The questions at these places of the list that a formula gives.
fn picked(table: &[u32], unit: u32, places: &[usize]) -> Vec<Question> {
    let all = questions(table, unit, 20).into_iter().enumerate();
    all.filter(|(place, _)| places.contains(place))
        .map(|(_, question)| question)
        .collect()
}

/// Each way to be refused by the input, which of two comes first, and what is
/// just accepted.
fn refused() -> Vec<Question> {
    let mut ninth_wrong = vec![32; 9];
    ninth_wrong[4] = 0;
    vec![
        of(Rect::new(80, 5, 85, 5), vec![]),
        of(Rect::new(80, 0, 1_000_001, 5), vec![0]),
        of(Rect::new(85, 0, 80, 5), vec![32]),
        of(EIGHTH, vec![]),
        of(EIGHTH, vec![32; 8]),
        of(EIGHTH, ninth_wrong),
        of(EIGHTH, vec![32, 0]),
        of(EIGHTH, vec![1 << 40]),
        of(EIGHTH, vec![1 << 39]),
    ]
}

/// One that finds a piece, one that finds all, and one with two faults.
fn some() -> Vec<Question> {
    vec![
        example(),
        of(EIGHTH, vec![1]),
        of(Rect::new(80, 5, 85, 5), vec![]),
    ]
}

/// Where piece 8 of the nine stands.
const EIGHTH: Rect = Rect::new(80, 0, 85, 5);

fn of(reference: Rect, clauses: Vec<u64>) -> Question {
    Question { reference, clauses }
}

/// The lines of these questions, each call with an answer slice of `room` words.
fn asked(name: &str, table: &[u32], questions: &[Question], room: usize) -> String {
    let line = |question| name.to_string() + &question_line(table, question, room);
    questions.iter().map(line).collect()
}

/// ` x1 y1 x2 y2 COUNT CLAUSE.. | REFUSAL HITS OPENED | NUMBER.. | SUM | REFUSAL
/// COUNT | PAGE.. | SUM`, the sums those of all words of the answer slice.
fn question_line(table: &[u32], question: &Question, room: usize) -> String {
    let mut answer = vec![BLANK; room];
    let (refusal, hits, opened) = query(table, question.reference, &question.clauses, &mut answer);
    let mut line = format!("{question} | {refusal} {hits} {opened} |");
    line += &each(front(&answer, hits as usize));
    line += &format!(" | {}", sum(&answer));
    let mut answer = vec![BLANK; room];
    let (refusal, pages) = rising_pages(table, question, &mut answer);
    line += &format!(" | {refusal} {} |{}", pages.len(), each(&pages));
    line + &format!(" | {}\n", sum(&answer))
}

fn sum(answer: &[u16]) -> u32 {
    answer.iter().copied().map(u32::from).sum()
}

/// Less than the length, the length, above it, and far above: in 32 bits the
/// last would be 1.
const FRONT_COUNTS: [usize; 4] = [2, 3, 4, (1 << 32) + 1];

/// front LENGTH COUNT | WORD..
fn front_line(count: usize) -> String {
    let answer = [3, 5, 8];
    let part = front(&answer, count);
    format!("front {} {count} |{}\n", answer.len(), each(part))
}
