//! One run of a program, which cannot hang its caller.

use crate::Feed;
use std::io::{self, ErrorKind, Read};
use std::path::PathBuf;
use std::process::{Child, ChildStdin, Command, ExitStatus, Stdio};
use std::thread::{self, sleep, ScopedJoinHandle};
use std::time::{Duration, Instant};

/// Longer than any right program takes, even on a busy machine.
const LIMIT: Duration = Duration::from_secs(20);

/// How often is looked whether the program has ended.
const LOOK: Duration = Duration::from_millis(1);

/// No job prints so much: 1,608 listings of 1,024 pieces are less than half of
/// it. A program that prints without end is stopped there.
const MOST: u64 = 1 << 24;

/// A program, its arguments, and how long a run of it may take.
pub struct Program {
    path: PathBuf,
    arguments: Vec<String>,
    limit: Duration,
}

/// What a run left.
pub struct Ended {
    pub status: ExitStatus,
    pub output: Vec<u8>,
    pub errors: Vec<u8>,
}

impl Program {
    pub fn new(path: impl Into<PathBuf>) -> Program {
        Program {
            path: path.into(),
            arguments: Vec::new(),
            limit: LIMIT,
        }
    }

    /// The same with an argument.
    pub fn with(mut self, argument: &str) -> Program {
        self.arguments.push(argument.to_string());
        self
    }

    /// The same with another limit.
    pub fn within(mut self, limit: Duration) -> Program {
        self.limit = limit;
        self
    }

    /// Runs it with these bytes as standard input. Input, output and errors
    /// have a thread each, so that no full pipe can stop the others.
    pub fn run(&self, bytes: &[u8], feed: Feed) -> Result<Ended, String> {
        let mut child = self.start()?;
        let input = child.stdin.take().expect("a pipe to the program");
        let output = child.stdout.take().expect("a pipe from the program");
        let errors = child.stderr.take().expect("a pipe for its errors");
        thread::scope(|scope| {
            let fed = scope.spawn(move || write(bytes, feed, input));
            let output = scope.spawn(move || read(output));
            let errors = scope.spawn(move || read(errors));
            let status = self.wait(&mut child);
            let (fed, output, errors) = (done(fed), done(output), done(errors));
            fed?;
            Ok(Ended {
                status: status?,
                output: output?,
                errors: errors?,
            })
        })
    }

    fn start(&self) -> Result<Child, String> {
        Command::new(&self.path)
            .args(&self.arguments)
            .stdin(Stdio::piped())
            .stdout(Stdio::piped())
            .stderr(Stdio::piped())
            .spawn()
            .map_err(|error| format!("{} does not start: {error}", self.path.display()))
    }

    /// Waits for the end; at the limit the program is killed.
    fn wait(&self, child: &mut Child) -> Result<ExitStatus, String> {
        let start = Instant::now();
        let failed = |error: io::Error| format!("the program cannot be waited for: {error}");
        while start.elapsed() < self.limit {
            if let Some(status) = child.try_wait().map_err(failed)? {
                return Ok(status);
            }
            sleep(LOOK);
        }
        child.kill().map_err(failed)?;
        child.wait().map_err(failed)?;
        Err(format!("it did not end within {:?}", self.limit))
    }
}

/// What the thread of a pipe brought.
fn done<T>(thread: ScopedJoinHandle<'_, io::Result<T>>) -> Result<T, String> {
    let ended = thread.join().expect("the thread of a pipe ends");
    ended.map_err(|error| format!("a pipe failed: {error}"))
}

/// Writes and closes. A program may end before it has read all.
fn write(bytes: &[u8], feed: Feed, mut to: ChildStdin) -> io::Result<()> {
    match feed.write(bytes, &mut to) {
        Err(error) if error.kind() == ErrorKind::BrokenPipe => Ok(()),
        done => done,
    }
}

fn read(from: impl Read) -> io::Result<Vec<u8>> {
    let mut bytes = Vec::new();
    from.take(MOST).read_to_end(&mut bytes)?;
    Ok(bytes)
}
