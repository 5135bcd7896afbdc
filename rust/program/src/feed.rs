//! How the bytes of a job are written to the pipe.

use std::fmt;
use std::io::{self, Write};
use std::thread::sleep;
use std::time::Duration;

/// A pause lets the program read what is in the pipe, so that its read is a
/// short one. It may come late: then the run is still a right one.
const PAUSE: Duration = Duration::from_millis(2);

/// After so many pauses the rest is written without: they cost time.
const PAUSES: usize = 40;

#[derive(Clone, Copy, Debug, PartialEq, Eq)]
pub enum Feed {
    /// All bytes at once, as far as the pipe takes them.
    Whole,
    /// So many bytes at a time, with pauses. Between the first two stands an
    /// empty write, which a pipe passes on as nothing: no end of the input.
    Parts(usize),
}

impl Feed {
    /// Writes the bytes. The writer must not keep any of them back.
    pub fn write(self, bytes: &[u8], to: &mut impl Write) -> io::Result<()> {
        let Feed::Parts(size) = self else {
            return to.write_all(bytes);
        };
        for (place, part) in bytes.chunks(size).enumerate() {
            to.write_all(part)?;
            if place == 0 {
                // write_all would not even try.
                assert_eq!(to.write(&[])?, 0);
            }
            if place < PAUSES {
                sleep(PAUSE);
            }
        }
        Ok(())
    }
}

impl fmt::Display for Feed {
    fn fmt(&self, f: &mut fmt::Formatter<'_>) -> fmt::Result {
        match self {
            Feed::Whole => f.write_str("all at once"),
            Feed::Parts(1) => f.write_str("a byte at a time"),
            Feed::Parts(size) => write!(f, "in parts of {size} bytes"),
        }
    }
}

#[cfg(test)]
mod tests {
    use super::*;

    /// Keeps what each write brought.
    #[derive(Default)]
    struct Writes(Vec<Vec<u8>>);

    impl Write for Writes {
        fn write(&mut self, bytes: &[u8]) -> io::Result<usize> {
            self.0.push(bytes.to_vec());
            Ok(bytes.len())
        }

        fn flush(&mut self) -> io::Result<()> {
            Ok(())
        }
    }

    #[test]
    fn parts_in_order_and_an_empty_one() {
        let mut writes = Writes::default();
        Feed::Parts(3).write(b"abcdefgh", &mut writes).unwrap();
        assert_eq!(writes.0, [&b"abc"[..], b"", b"def", b"gh"]);
    }

    #[test]
    fn whole_is_one_write() {
        let mut writes = Writes::default();
        Feed::Whole.write(b"abcdefgh", &mut writes).unwrap();
        assert_eq!(writes.0, [b"abcdefgh"]);
    }
}
