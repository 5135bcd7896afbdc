//! One call at a time, made of the model and of the other, and compared.

use crate::lent::Lent;
use crate::Calls;
use model::nearest::Nearest;
use model::sizes::POINTS;
use model::tiles::Shares;
use model::{Rect, PIECES};
use std::fmt::{self, Debug};

/// Where the other differs from the model.
pub struct Difference(String);

impl Debug for Difference {
    fn fmt(&self, f: &mut fmt::Formatter<'_>) -> fmt::Result {
        f.write_str(&self.0)
    }
}

pub type Outcome<T = ()> = Result<T, Difference>;

/// The model and another, side by side. The other gets copies of the slices.
pub struct Compared<'a> {
    other: &'a dyn Calls,
    case: String,
    /// How many calls were compared.
    pub calls: u64,
}

impl<'a> Compared<'a> {
    pub fn new(other: &'a dyn Calls) -> Compared<'a> {
        Compared {
            other,
            case: String::new(),
            calls: 0,
        }
    }

    /// Names what is tried next: a difference will say so.
    pub fn case(&mut self, case: impl Into<String>) {
        self.case = case.into();
    }

    /// The empty call. `table` is left as the model leaves it.
    pub fn empty(&mut self, table: &mut [u32]) -> Outcome<u32> {
        let what = || "empty".to_string();
        let mut lent = self.lent_words(table);
        let ours = model::empty(table);
        let theirs = self.other.empty(lent.slice_mut());
        self.same_return(ours, theirs, &what)?;
        self.same_words(table, &lent, &what)?;
        Ok(ours)
    }

    pub fn check(&mut self, table: &[u32]) -> Outcome<(u32, u32)> {
        let what = || "check".to_string();
        let lent = self.lent_words(table);
        let ours = model::check(table);
        let theirs = self.other.check(lent.slice());
        self.same_return(ours, theirs, &what)?;
        self.same_words(table, &lent, &what)?;
        Ok(ours)
    }

    /// The place call. `table` is left as the model leaves it.
    pub fn place(&mut self, table: &mut [u32], number: u32, rect: Rect) -> Outcome<u32> {
        let what = || format!("place of {number} at {rect:?}");
        let mut lent = self.lent_words(table);
        let ours = model::place(table, number, rect);
        let theirs = self.other.place(lent.slice_mut(), number, rect);
        self.same_return(ours, theirs, &what)?;
        self.same_words(table, &lent, &what)?;
        Ok(ours)
    }

    /// The query call, with an answer slice of `length` words.
    pub fn query(
        &mut self,
        table: &[u32],
        reference: Rect,
        clauses: &[u64],
        length: usize,
    ) -> Outcome<(u32, u32, u32)> {
        self.query_into(table, reference, clauses, &mut pattern(length))
    }

    /// The query call, with 1,024 answer words: what it lists.
    pub fn listing(
        &mut self,
        table: &[u32],
        reference: Rect,
        clauses: &[u64],
    ) -> Outcome<Vec<u16>> {
        let mut answer = pattern(PIECES);
        let (_, hits, _) = self.query_into(table, reference, clauses, &mut answer)?;
        answer.truncate(hits as usize);
        Ok(answer)
    }

    /// The query call. `answer` is left as the model leaves it.
    fn query_into(
        &mut self,
        table: &[u32],
        reference: Rect,
        clauses: &[u64],
        answer: &mut [u16],
    ) -> Outcome<(u32, u32, u32)> {
        let length = answer.len();
        let what = || asked("query", reference, clauses, length);
        let (lent, lent_clauses) = (self.lent_words(table), self.lent_clauses(clauses));
        let mut lent_answer = self.lent_answer(answer);
        let ours = model::query(table, reference, clauses, answer);
        let theirs = self.other.query(
            lent.slice(),
            reference,
            lent_clauses.slice(),
            lent_answer.slice_mut(),
        );
        self.same_return(ours, theirs, &what)?;
        self.same_words(answer, &lent_answer, &what)?;
        self.same_words(table, &lent, &what)?;
        self.same_words(clauses, &lent_clauses, &what)?;
        Ok(ours)
    }

    /// The opened-pages call: "Their order is free."
    pub fn opened_pages(
        &mut self,
        table: &[u32],
        reference: Rect,
        clauses: &[u64],
        length: usize,
    ) -> Outcome<(u32, u32)> {
        let what = || asked("opened pages", reference, clauses, length);
        let mut answer = pattern(length);
        let (lent, lent_clauses) = (self.lent_words(table), self.lent_clauses(clauses));
        let mut lent_answer = self.lent_answer(&answer);
        let ours = model::opened_pages(table, reference, clauses, &mut answer);
        let theirs = self.other.opened_pages(
            lent.slice(),
            reference,
            lent_clauses.slice(),
            lent_answer.slice_mut(),
        );
        self.same_return(ours, theirs, &what)?;
        let count = ours.1 as usize;
        answer[..count].sort_unstable();
        lent_answer.slice_mut()[..count].sort_unstable();
        self.same_words(&answer, &lent_answer, &what)?;
        self.same_words(table, &lent, &what)?;
        self.same_words(clauses, &lent_clauses, &what)?;
        Ok(ours)
    }

    pub fn admitted(&mut self, clauses: &[u64]) -> Outcome<(u32, [u16; 13], u32)> {
        let what = || format!("admitted set of clauses {}", brief(clauses));
        let lent = self.lent_clauses(clauses);
        let ours = model::admitted(clauses);
        let theirs = self.other.admitted(lent.slice());
        self.same_return(ours, theirs, &what)?;
        self.same_words(clauses, &lent, &what)?;
        Ok(ours)
    }

    /// The front call: the very same part of the slice, with no copy.
    pub fn front(&mut self, answer: &[u16], count: usize) -> Outcome {
        let what = || format!("front of {} words, count {count}", answer.len());
        let ours = model::front(answer, count);
        let theirs = self.other.front(answer, count);
        self.same_return(ours, theirs, &what)?;
        let same_place = ours.is_empty() || ours.as_ptr() == theirs.as_ptr();
        self.same_return(true, same_place, &what)
    }

    pub fn outline_area(&mut self, words: &[u32]) -> Outcome<(u32, i64)> {
        let what = || format!("area of outline {}", outline(words));
        let lent = self.lent_words(words);
        let ours = model::outline_area(words);
        let theirs = self.other.outline_area(lent.slice());
        self.same_return(ours, theirs, &what)?;
        self.same_words(words, &lent, &what)?;
        Ok(ours)
    }

    pub fn outline_point(&mut self, words: &[u32], x: u32, y: u32) -> Outcome<(u32, u32)> {
        let what = || format!("point ({x}, {y}) by outline {}", outline(words));
        let lent = self.lent_words(words);
        let ours = model::outline_point(words, x, y);
        let theirs = self.other.outline_point(lent.slice(), x, y);
        self.same_return(ours, theirs, &what)?;
        self.same_words(words, &lent, &what)?;
        Ok(ours)
    }

    pub fn tile_shares(&mut self, piece: Rect, reference: Rect) -> Outcome<Shares> {
        let what = || format!("{piece:?} among the tiles of {reference:?}");
        let ours = model::tile_shares(piece, reference);
        let theirs = self.other.tile_shares(piece, reference);
        self.same_return(ours, theirs, &what)?;
        Ok(ours)
    }

    pub fn turned_rect(&mut self, rect: Rect) -> Outcome<Rect> {
        let what = || format!("{rect:?} turned");
        let ours = model::turned_rect(rect);
        let theirs = self.other.turned_rect(rect);
        self.same_return(ours, theirs, &what)?;
        Ok(ours)
    }

    pub fn turned_clause(&mut self, clause: u64) -> Outcome<u64> {
        let what = || format!("clause {clause:#x} turned");
        let ours = model::turned_clause(clause);
        let theirs = self.other.turned_clause(clause);
        self.same_return(Bits(ours), Bits(theirs), &what)?;
        Ok(ours)
    }

    pub fn nearest_piece(
        &mut self,
        table: &[u32],
        x: u32,
        y: u32,
        allowance: u32,
    ) -> Outcome<Nearest> {
        let what = || format!("piece nearest to ({x}, {y}), allowance {allowance}");
        let lent = self.lent_words(table);
        let ours = model::nearest_piece(table, x, y, allowance);
        let theirs = self.other.nearest_piece(lent.slice(), x, y, allowance);
        self.same_return(ours, theirs, &what)?;
        self.same_words(table, &lent, &what)?;
        Ok(ours)
    }

    fn lent_words(&self, words: &[u32]) -> Lent<u32> {
        Lent::new(words, 0xA5A5_A5A5, self.calls)
    }

    fn lent_clauses(&self, clauses: &[u64]) -> Lent<u64> {
        Lent::new(clauses, 0xA5A5_A5A5_A5A5_A5A5, self.calls / 8)
    }

    fn lent_answer(&self, answer: &[u16]) -> Lent<u16> {
        Lent::new(answer, 0xA5A5, self.calls / 3)
    }

    fn same_return<T: PartialEq + Debug>(
        &mut self,
        ours: T,
        theirs: T,
        what: &dyn Fn() -> String,
    ) -> Outcome {
        self.calls += 1;
        if ours == theirs {
            return Ok(());
        }
        self.differs(
            what(),
            format!("the model returns {ours:?}, not {theirs:?}"),
        )
    }

    /// Every word of the slice is the same, and none around it was touched.
    fn same_words<T: Copy + PartialEq + Debug>(
        &self,
        ours: &[T],
        lent: &Lent<T>,
        what: &dyn Fn() -> String,
    ) -> Outcome {
        let theirs = lent.slice();
        if !lent.is_guarded() {
            return self.differs(what(), "a word outside a slice is written".to_string());
        }
        if ours == theirs {
            return Ok(());
        }
        let mut words = ours.iter().zip(theirs).enumerate();
        let (word, (ours, theirs)) = words
            .find(|(_, (ours, theirs))| ours != theirs)
            .expect("slices of the same length that differ");
        self.differs(
            what(),
            format!("word {word} is {ours:?} in the model, not {theirs:?}"),
        )
    }

    /// A difference: what was asked, and how the answers differ.
    pub(crate) fn differs(&self, what: String, how: String) -> Outcome {
        Err(Difference(format!("{}: {what}: {how}", self.case)))
    }
}

/// A clause: its bits are told from hexadecimal digits.
#[derive(PartialEq)]
struct Bits(u64);

impl Debug for Bits {
    fn fmt(&self, f: &mut fmt::Formatter<'_>) -> fmt::Result {
        write!(f, "{:#x}", self.0)
    }
}

/// An answer slice in which a word written, or not written, is seen: no word
/// is a piece number.
fn pattern(length: usize) -> Vec<u16> {
    (0..length).map(|word| 0x8000 | word as u16).collect()
}

pub(crate) fn asked(call: &str, reference: Rect, clauses: &[u64], length: usize) -> String {
    let clauses = brief(clauses);
    format!("{call} of {reference:?}, clauses {clauses}, {length} answer words")
}

/// The first clauses, and how many there are.
fn brief(clauses: &[u64]) -> String {
    let shown: Vec<String> = clauses
        .iter()
        .take(9)
        .map(|clause| format!("{clause:#x}"))
        .collect();
    format!("[{}] ({})", shown.join(", "), clauses.len())
}

/// The words of the most points that an outline can have, and how many there
/// are.
fn outline(words: &[u32]) -> String {
    let shown = &words[..words.len().min(2 * POINTS)];
    format!("{shown:?} ({} words)", words.len())
}
