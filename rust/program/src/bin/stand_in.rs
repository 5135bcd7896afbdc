//! A job program that answers with the model, to try the suites on: `stand_in`
//! alone is right, `stand_in FAULT` has that fault of reading or writing.

#![forbid(unsafe_code)]

use model::job::{job, JOB_BYTES};
use std::io::{self, Read, Write};
use std::process::ExitCode;
use std::thread::sleep;
use std::time::Duration;

/// The size of the buffer that the faults of writing have.
const BUFFER_BYTES: usize = 16_384;

/// As many bytes as show that a job is too long.
const READ_BYTES: usize = JOB_BYTES + 1;

fn main() -> io::Result<ExitCode> {
    let fault = std::env::args().nth(1).unwrap_or_default();
    let output = job(&input(&fault)?);
    write(&fault, &output)?;
    Ok(match &*fault {
        "ends with status 1" => ExitCode::FAILURE,
        _ => ExitCode::SUCCESS,
    })
}

fn input(fault: &str) -> io::Result<Vec<u8>> {
    match fault {
        "hangs before it reads" => hang(),
        "reads only once" => read_while(READ_BYTES, |_, total| total < 1),
        "stops at a short read" => read_while(4_096, |got, _| got == 4_096),
        "takes 65,537 bytes as good" => {
            let mut bytes = read_while(READ_BYTES, |_, _| true)?;
            bytes.truncate(JOB_BYTES);
            Ok(bytes)
        }
        "takes 65,536 bytes as bad" => {
            let bytes = read_while(READ_BYTES, |_, _| true)?;
            Ok(if bytes.len() < JOB_BYTES {
                bytes
            } else {
                Vec::new()
            })
        }
        _ => read_while(READ_BYTES, |_, _| true),
    }
}

/// Reads up to `most` bytes at a time, until the input ends or is too long, or
/// `more` says no to what a read got and what there is in total.
fn read_while(most: usize, more: fn(usize, usize) -> bool) -> io::Result<Vec<u8>> {
    let mut bytes = Vec::new();
    let mut part = vec![0; most];
    loop {
        let got = io::stdin().lock().read(&mut part)?;
        bytes.extend(&part[..got]);
        if got == 0 || bytes.len() > JOB_BYTES || !more(got, bytes.len()) {
            return Ok(bytes);
        }
    }
}

fn write(fault: &str, output: &[u8]) -> io::Result<()> {
    let full = output.len().saturating_sub(1) / BUFFER_BYTES * BUFFER_BYTES;
    let (earlier, last) = output.split_at(full);
    let kept = match fault {
        "hangs at the end" => hang(),
        "loses all but the last buffer" => last,
        "loses the last buffer" if !earlier.is_empty() => earlier,
        "writes earlier buffers to standard error" => {
            io::stderr().write_all(earlier)?;
            last
        }
        "writes a line to standard error" => {
            io::stderr().write_all(b"done\n")?;
            output
        }
        "stops at 64 KiB" => &output[..output.len().min(65_536)],
        "stops at 128 KiB" => &output[..output.len().min(131_072)],
        _ => output,
    };
    io::stdout().write_all(kept)?;
    io::stdout().flush()
}

fn hang() -> ! {
    loop {
        sleep(Duration::from_secs(60));
    }
}
