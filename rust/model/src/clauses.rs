//! Clauses and the set of configurations that they admit.

use super::refusals::{ACCEPTED, CLAUSE_COUNT, CLAUSE_NOT_VALID};
use super::relations::belongs;
use super::sizes::{CLAUSES, CODES, RELATIONS};

/// "4 no clause, or more than 8. 5 a clause that is zero or has bit 40 or
/// higher."
pub fn refusal(clauses: &[u64]) -> u32 {
    if clauses.is_empty() || clauses.len() > CLAUSES {
        CLAUSE_COUNT
    } else if !clauses.iter().all(|&clause| is_valid(clause)) {
        CLAUSE_NOT_VALID
    } else {
        ACCEPTED
    }
}

fn is_valid(clause: u64) -> bool {
    clause != 0 && clause >> RELATIONS == 0
}

/// A clause is "a 64-bit set whose bit t (bit 0 lowest) stands for relation
/// t": whether configuration (i, j) belongs to a named relation.
fn names(clause: u64, i: u8, j: u8) -> bool {
    (0..RELATIONS).any(|t| clause >> t & 1 == 1 && belongs(t, i, j))
}

/// "It admits the configurations that, in every clause, belong to at least
/// one named relation."
pub fn admits(clauses: &[u64], i: u8, j: u8) -> bool {
    clauses.iter().all(|&clause| names(clause, i, j))
}

/// Thirteen row sets.
pub type Rows = [u16; CODES];

/// "Row set i, from 1 to 13, is a number whose bit j - 1 is one exactly for
/// each admitted (i, j)."
pub fn rows(clauses: &[u64]) -> Rows {
    let mut rows = [0; CODES];
    for i in 1..=13 {
        for j in 1..=13 {
            if admits(clauses, i, j) {
                rows[usize::from(i - 1)] |= 1 << (j - 1);
            }
        }
    }
    rows
}

/// Whether the row sets hold (i, j).
pub fn holds(rows: &Rows, i: u8, j: u8) -> bool {
    rows[usize::from(i - 1)] >> (j - 1) & 1 == 1
}

/// "how many of the 169 configurations are admitted"
pub fn size(rows: &Rows) -> u32 {
    rows.iter().map(|row| row.count_ones()).sum()
}

/// The admitted-set call: "returns thirteen row sets and how many of the 169
/// configurations are admitted"; refuses "4, 5, with empty rows".
pub fn admitted(clauses: &[u64]) -> (u32, Rows, u32) {
    let refusal = refusal(clauses);
    if refusal != ACCEPTED {
        return (refusal, [0; CODES], 0);
    }
    let rows = rows(clauses);
    (ACCEPTED, rows, size(&rows))
}

#[cfg(test)]
mod tests {
    use super::*;

    fn count(clauses: &[u64]) -> u32 {
        let (refusal, _, count) = admitted(clauses);
        assert_eq!(refusal, 0);
        count
    }

    #[test]
    fn starred_counts() {
        let (disjoint, meet, overlap) = (1 << 0, 1 << 1, 1 << 2);
        let (equal, contains) = (1 << 5, 1 << 7);
        let (weak_corner_north, north) = (1 << 13, 1 << 15);
        assert_eq!(count(&[disjoint]), 169);
        assert_eq!(count(&[meet]), 121);
        assert_eq!(count(&[overlap]), 81);
        assert_eq!(count(&[overlap, north]), 9);
        assert_eq!(count(&[weak_corner_north]), 3);
        assert_eq!(count(&[equal, contains]), 0);
        assert_eq!(count(&[equal | contains]), 2);
    }

    #[test]
    fn rows_of_overlap_and_north() {
        let (_, rows, _) = admitted(&[1 << 2, 1 << 15]);
        let mut expected = [0; 13];
        expected[2] = 0b0_0111_1111_1100;
        assert_eq!(rows, expected);
    }

    #[test]
    fn refusals() {
        let refused = |number| (number, [0; 13], 0);
        assert_eq!(admitted(&[]), refused(4));
        assert_eq!(admitted(&[1; 9]), refused(4));
        assert_eq!(admitted(&[0; 9]), refused(4));
        assert_eq!(admitted(&[0]), refused(5));
        assert_eq!(admitted(&[1, 0]), refused(5));
        assert_eq!(admitted(&[1 | 1 << 40]), refused(5));
        assert_eq!(admitted(&[1 << 63]), refused(5));
        assert_eq!(admitted(&[1 << 39]).0, 0);
        assert_eq!(admitted(&[1; 8]).0, 0);
    }
}
