//! One job at a time, run by the program and by the model, and compared.

use crate::run::Ended;
use crate::{Feed, Program};

/// What differs, in words.
pub type Outcome<T = ()> = Result<T, String>;

/// A program beside the model.
pub struct Compared<'a> {
    program: &'a Program,
    /// How many runs were compared.
    pub runs: usize,
}

impl<'a> Compared<'a> {
    pub fn new(program: &'a Program) -> Compared<'a> {
        Compared { program, runs: 0 }
    }

    /// Runs a job once for each way to feed it. Returns how many bytes it
    /// prints.
    pub fn job(&mut self, name: &str, bytes: &[u8], feeds: &[Feed]) -> Outcome<usize> {
        let expected = model::job(bytes);
        for &feed in feeds {
            self.runs += 1;
            let ended = self.program.run(bytes, feed);
            ended
                .and_then(|ended| same(&ended, &expected))
                .map_err(|how| format!("job {name} ({} bytes, {feed}): {how}", bytes.len()))?;
        }
        Ok(expected.len())
    }
}

/// The same output, nothing on standard error, and a good end.
fn same(ended: &Ended, expected: &[u8]) -> Outcome {
    let Ended {
        status,
        output,
        errors,
    } = ended;
    if output != expected {
        let part = parting(output, expected);
        let written = match errors.len() {
            0 => String::new(),
            count => format!("; standard error has {count} bytes"),
        };
        return Err(format!("{part}{written}"));
    }
    if !errors.is_empty() {
        let text = String::from_utf8_lossy(errors);
        return Err(format!("it writes to standard error: {text:?}"));
    }
    if !status.success() {
        return Err(format!("the right output, but it ends with {status}"));
    }
    Ok(())
}

/// Where two outputs part, with what stands there.
fn parting(output: &[u8], expected: &[u8]) -> String {
    let same = output.iter().zip(expected).take_while(|(a, b)| a == b);
    let at = same.count();
    let lines = output[..at].iter().filter(|&&byte| byte == b'\n').count();
    format!(
        "it prints {} bytes, the model {}; from byte {at} (line {}) on {:?} for {:?}",
        output.len(),
        expected.len(),
        lines + 1,
        excerpt(&output[at..]),
        excerpt(&expected[at..])
    )
}

/// As much as a message can bear.
fn excerpt(bytes: &[u8]) -> String {
    let some = &bytes[..bytes.len().min(24)];
    let more = if some.len() < bytes.len() { ".." } else { "" };
    String::from_utf8_lossy(some).into_owned() + more
}

#[cfg(test)]
mod tests {
    use super::*;

    #[test]
    fn where_outputs_part() {
        let said = parting(b"P 0 3\nQ 0 1", b"P 0 3\nQ 1 1 5\n");
        let expected =
            "it prints 11 bytes, the model 14; from byte 8 (line 2) on \"0 1\" for \"1 1 5\\n\"";
        assert_eq!(said, expected);
    }
}
