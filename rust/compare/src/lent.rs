//! A slice to be lent, with words before and after it that no call may touch.

/// So many words stand on each side.
const GUARD_WORDS: usize = 8;

/// A copy of a slice between guards. It begins at a shifted place, so that
/// slices of every alignment are lent.
pub struct Lent<T> {
    words: Vec<T>,
    start: usize,
    length: usize,
    guard: T,
}

impl<T: Copy + PartialEq> Lent<T> {
    pub fn new(slice: &[T], guard: T, shift: u64) -> Lent<T> {
        let start = GUARD_WORDS + shift as usize % GUARD_WORDS;
        let mut words = Vec::with_capacity(start + slice.len() + GUARD_WORDS);
        words.resize(start, guard);
        words.extend(slice);
        words.resize(start + slice.len() + GUARD_WORDS, guard);
        Lent {
            words,
            start,
            length: slice.len(),
            guard,
        }
    }

    fn range(&self) -> std::ops::Range<usize> {
        self.start..self.start + self.length
    }

    pub fn slice(&self) -> &[T] {
        &self.words[self.range()]
    }

    pub fn slice_mut(&mut self) -> &mut [T] {
        let range = self.range();
        &mut self.words[range]
    }

    /// Whether the words around the slice are as they were.
    pub fn is_guarded(&self) -> bool {
        let before = &self.words[..self.start];
        let after = &self.words[self.start + self.length..];
        let mut around = before.iter().chain(after);
        around.all(|&word| word == self.guard)
    }
}
