//! The job program: bytes in, bytes out.

use super::pages::empty;
use super::placing::place;
use super::queries::{front, query};
use super::rectangles::Rect;
use super::refusals::ACCEPTED;
use super::sizes::{PIECES, TABLE_WORDS};

/// "reads up to 65,536 bytes from standard input"
pub const JOB_BYTES: usize = 65_536;

/// "it prints only "bad job"". Each line ends in a newline, this one too.
const BAD_JOB: &str = "bad job\n";

struct Job {
    pieces: Vec<Piece>,
    queries: Vec<Query>,
}

struct Piece {
    number: u32,
    rect: Rect,
}

struct Query {
    reference: Rect,
    clauses: Vec<u64>,
}

/// What the program prints when these bytes are its standard input. Nothing of
/// a job is run before all of it is known to be well formed.
pub fn job(bytes: &[u8]) -> Vec<u8> {
    match read_job(bytes) {
        Some(job) => run(&job).into_bytes(),
        None => BAD_JOB.into(),
    }
}

/// "as little-endian 32-bit words in two sections, each after its count. .. If
/// there are more bytes, or they don't make up exactly that": nothing.
fn read_job(bytes: &[u8]) -> Option<Job> {
    if bytes.len() > JOB_BYTES || !bytes.len().is_multiple_of(4) {
        return None;
    }
    let mut words = bytes
        .chunks_exact(4)
        .map(|four| u32::from_le_bytes([four[0], four[1], four[2], four[3]]));
    let job = Job {
        pieces: read_section(&mut words, read_piece)?,
        queries: read_section(&mut words, read_query)?,
    };
    words.next().is_none().then_some(job)
}

/// A count and so many items. A count too large for the words that are left
/// runs out of them, however large it is.
fn read_section<W: Iterator<Item = u32>, T>(
    words: &mut W,
    read: fn(&mut W) -> Option<T>,
) -> Option<Vec<T>> {
    let count = words.next()?;
    (0..count).map(|_| read(words)).collect()
}

/// "Pieces: number, x1, y1, x2, y2."
fn read_piece(words: &mut impl Iterator<Item = u32>) -> Option<Piece> {
    Some(Piece {
        number: words.next()?,
        rect: read_rect(words)?,
    })
}

/// "Queries: x1, y1, x2, y2, clause count, then each clause as low word, high
/// word."
fn read_query<W: Iterator<Item = u32>>(words: &mut W) -> Option<Query> {
    Some(Query {
        reference: read_rect(words)?,
        clauses: read_section(words, read_clause)?,
    })
}

fn read_rect(words: &mut impl Iterator<Item = u32>) -> Option<Rect> {
    let x1 = words.next()?;
    let y1 = words.next()?;
    let x2 = words.next()?;
    let y2 = words.next()?;
    Some(Rect { x1, y1, x2, y2 })
}

fn read_clause(words: &mut impl Iterator<Item = u32>) -> Option<u64> {
    let low = words.next()?;
    let high = words.next()?;
    Some(u64::from(high) << 32 | u64::from(low))
}

fn run(job: &Job) -> String {
    let mut table = vec![0; TABLE_WORDS];
    empty(&mut table);
    let mut lines = String::new();
    for (position, piece) in job.pieces.iter().enumerate() {
        lines += &piece_line(&mut table, position, piece);
    }
    for (position, query) in job.queries.iter().enumerate() {
        lines += &query_line(&table, position, query);
    }
    lines
}

/// "A refused piece prints "P", its position from 0 and the refusal"
fn piece_line(table: &mut [u32], position: usize, piece: &Piece) -> String {
    match place(table, piece.number, piece.rect) {
        ACCEPTED => String::new(),
        refusal => format!("P {position} {refusal}\n"),
    }
}

/// "a refused query "R" likewise. An accepted query prints "Q", position,
/// hits, opened pages, then the piece numbers. Fields are decimal with one
/// space between, one line each, no header."
fn query_line(table: &[u32], position: usize, asked: &Query) -> String {
    let mut answer = [0; PIECES];
    let (refusal, hits, opened) = query(table, asked.reference, &asked.clauses, &mut answer);
    if refusal != ACCEPTED {
        return format!("R {position} {refusal}\n");
    }
    let listing: String = front(&answer, hits as usize)
        .iter()
        .map(|number| format!(" {number}"))
        .collect();
    format!("Q {position} {hits} {opened}{listing}\n")
}

#[cfg(test)]
mod tests {
    use super::*;

    fn bytes(words: &[u32]) -> Vec<u8> {
        words.iter().flat_map(|word| word.to_le_bytes()).collect()
    }

    fn printed(words: &[u32]) -> String {
        String::from_utf8(job(&bytes(words))).unwrap()
    }

    #[test]
    fn the_example() {
        let words = [1, 5, 0, 0, 10, 10, 1, 0, 0, 10, 10, 1, 32, 0];
        assert_eq!(printed(&words), "Q 0 1 1 5\n");
    }

    #[test]
    fn two_empty_sections_print_nothing() {
        assert_eq!(printed(&[0, 0]), "");
    }

    #[test]
    fn nothing_found_leaves_no_space_behind() {
        assert_eq!(printed(&[0, 1, 0, 0, 10, 10, 1, 32, 0]), "Q 0 0 1\n");
    }

    #[test]
    fn refused_pieces_and_queries() {
        let words = [
            4, // pieces
            1024, 0, 0, 1, 1, // 3
            7, 1, 0, 1, 1, // 2
            7, 0, 0, 1, 1, // accepted
            7, 0, 0, 2, 2, // 7
            5, // queries
            0, 0, 1, 1, 0, // 4
            0, 0, 0, 1, 0, // 2 stands before 4
            0, 0, 1, 1, 1, 0, 0, // 5
            0, 0, 1, 1, 1, 1, 256, // 5: bit 40
            0, 0, 1, 1, 2, 32, 0, 0, 128, // relations 5 and 39: none
        ];
        let expected = "P 0 3\nP 1 2\nP 3 7\nR 0 4\nR 1 2\nR 2 5\nR 3 5\nQ 4 0 1\n";
        assert_eq!(printed(&words), expected);
    }

    #[test]
    fn nine_clauses_are_well_formed_and_refused() {
        let mut words = vec![0, 1, 0, 0, 1, 1, 9];
        words.extend([1, 0].repeat(9));
        assert_eq!(printed(&words), "R 0 4\n");
    }

    #[test]
    fn bad_jobs() {
        let bad: [&[u32]; 9] = [
            &[],
            &[0],
            &[0, 0, 0],
            &[1, 5, 0, 0, 10],
            &[0, 1, 0, 0, 10, 10],
            &[0, 1, 0, 0, 10, 10, 1, 32],
            // 5 and 4 times these counts wrap to nothing or to little.
            &[u32::MAX, 0],
            &[0, 0x4000_0000],
            &[0, 1, 0, 0, 1, 1, 0x8000_0000],
        ];
        for words in bad {
            assert_eq!(printed(words), "bad job\n", "{words:?}");
        }
        assert_eq!(job(&[0; 9]), b"bad job\n");
        assert_eq!(job(&[0; 7]), b"bad job\n");
    }

    /// A well-formed job of 2 + 5 `pieces` + 7 words; one piece stands.
    fn long_job(pieces: u32) -> Vec<u8> {
        let mut words = vec![pieces];
        words.extend([5, 0, 0, 10, 10].repeat(pieces as usize));
        words.extend([1, 0, 0, 10, 10, 1, 32, 0]);
        bytes(&words)
    }

    #[test]
    fn as_many_bytes_as_may_be() {
        let full = long_job(3_275);
        assert_eq!(full.len(), JOB_BYTES);
        let output = String::from_utf8(job(&full)).unwrap();
        assert_eq!(output.lines().count(), 3_275);
        assert!(output.starts_with("P 1 7\n"));
        assert!(output.ends_with("P 3274 7\nQ 0 1 1 5\n"));
    }

    #[test]
    fn one_byte_more_is_a_bad_job() {
        let mut more = long_job(3_275);
        more.push(0);
        assert_eq!(job(&more), b"bad job\n");
        assert_eq!(job(&long_job(3_276)), b"bad job\n");
    }
}
