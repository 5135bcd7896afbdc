//! Prints what the model answers, for other programs to be compared with.
//! All numbers are decimal, with one space between them.

#![forbid(unsafe_code)]

use std::io::{self, Read, Write};
use std::path::Path;
use std::process::ExitCode;
use vectors::{formulas, jobs, lines, named, queries, relations, stored};

const HELP: &str = "\
vectors check          each named table: NAME REFUSAL PIECES
vectors query          named tables with queries:
                       NAME x1 y1 x2 y2 COUNT CLAUSE.. | REFUSAL HITS OPENED | NUMBER.. | PAGE..
                       (the pages rising; what is asked: see formulas.rs)
vectors place          runs of place calls, with checksums (see formulas.rs)
vectors names          the names of the tables and of their bases
vectors words NAME     a table's words that are not zero: INDEX VALUE
vectors changes NAME   a table's words that differ from its base: INDEX VALUE
vectors list NAME      like words, as the inside of an array: index, value, index, value, ..
vectors calls RUN      the calls of a run: NUMBER x1 y1 x2 y2
vectors jobs           the names of the jobs
vectors job NAME       a job's bytes
vectors answer         what the job program prints for the bytes on standard input
vectors answers NAME.. each file's name, and what the job program prints for its bytes:
                       what the crate job_runs prints, in its folder data
vectors check-input    what the crate check_examples reads (see stored.rs)
vectors check-output   and what it prints
vectors placing-output what the crate placing_examples prints
vectors history-output what the crate history_examples prints
vectors relations-output
                       what the crate relations_examples prints
vectors query-output   what the crate query_examples prints
";

fn main() -> ExitCode {
    let arguments: Vec<String> = std::env::args().skip(1).collect();
    let words: Vec<&str> = arguments.iter().map(String::as_str).collect();
    match output(&words) {
        Some(bytes) => print(&bytes),
        None => {
            eprint!("{HELP}");
            ExitCode::FAILURE
        }
    }
}

/// What is printed; nothing for a command or a name that is not known.
fn output(words: &[&str]) -> Option<Vec<u8>> {
    let text = match *words {
        ["check"] => lines::check(),
        ["query"] => lines::query(),
        ["place"] => lines::place(),
        ["names"] => lines::names(),
        ["words", name] => lines::words(&named::find(name)?.words),
        ["changes", name] => lines::changes(&named::find(name)?),
        ["list", name] => lines::list(&named::find(name)?),
        ["calls", name] => lines::calls(formulas::RUNS.iter().find(|run| run.name == name)?),
        ["check-input"] => stored::check_input(),
        ["check-output"] => stored::check_output(),
        ["placing-output"] => stored::placing_output(),
        ["history-output"] => stored::history_output(),
        ["relations-output"] => relations::output(),
        ["query-output"] => queries::output(),
        ["jobs"] => jobs::names(),
        ["job", name] => return jobs::find(name),
        ["answer"] => return Some(model::job(&standard_input())),
        ["answers", ref names @ ..] => return Some(jobs::answers(Path::new("."), names)),
        ["help"] => HELP.to_string(),
        _ => return None,
    };
    Some(text.into_bytes())
}

fn standard_input() -> Vec<u8> {
    let mut bytes = Vec::new();
    io::stdin()
        .read_to_end(&mut bytes)
        .expect("standard input is read");
    bytes
}

fn print(bytes: &[u8]) -> ExitCode {
    match io::stdout().write_all(bytes) {
        Ok(()) => ExitCode::SUCCESS,
        Err(_) => ExitCode::FAILURE,
    }
}
