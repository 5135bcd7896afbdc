//! Every output that a program crate stores is what the model prints. `rt ci`
//! compares the same files with what the programs print. The files
//! are made so:
//!
//! ```text
//! vectors check-input       crates/check_examples/stdin
//! vectors check-output      crates/check_examples/stdout
//! vectors placing-output    crates/placing_examples/stdout
//! vectors history-output    crates/history_examples/stdout
//! vectors relations-output  crates/relations_examples/stdout
//! vectors query-output      crates/query_examples/stdout
//! vectors answer            crates/finder/stdout, of crates/finder/stdin
//! vectors answers NAME..    crates/job_runs/stdout, in its folder data with the names in args
//! vectors job NAME          crates/job_runs/data/NAME, for the large jobs
//! ```

use std::fs;
use std::path::PathBuf;
use vectors::{jobs, queries, relations, stored};

/// A folder or a file of the program crates. Not env!: where a built tree was
/// copied, that would still name the first one.
fn path(file: &str) -> PathBuf {
    let here = std::env::var_os("CARGO_MANIFEST_DIR").expect("cargo says where this crate is");
    PathBuf::from(here).join("../../crates").join(file)
}

fn read(file: &str) -> Vec<u8> {
    fs::read(path(file)).unwrap_or_else(|error| panic!("crates/{file}: {error}"))
}

fn lines(bytes: &[u8]) -> Vec<String> {
    let lines = bytes.split_inclusive(|&byte| byte == b'\n');
    lines
        .map(|line| String::from_utf8_lossy(line).into())
        .collect()
}

/// Says at which line a stored file and the model part.
fn assert_stored(file: &str, text: impl AsRef<[u8]>) {
    let (stored, text) = (read(file), text.as_ref());
    if stored == text {
        return;
    }
    let (stored, text) = (lines(&stored), lines(text));
    let same = stored.iter().zip(&text).take_while(|(a, b)| a == b).count();
    panic!(
        "crates/{file}, line {}: {:?} is stored, the model has {:?} (rust/vectors/tests/stored.rs says what makes the file)",
        same + 1,
        stored.get(same),
        text.get(same)
    );
}

#[test]
fn check_examples() {
    assert_stored("check_examples/stdin", stored::check_input());
    assert_stored("check_examples/stdout", stored::check_output());
}

#[test]
fn placing_examples() {
    assert_stored("placing_examples/stdout", stored::placing_output());
}

#[test]
fn history_examples() {
    assert_stored("history_examples/stdout", stored::history_output());
}

#[test]
fn relations_examples() {
    assert_stored("relations_examples/stdout", relations::output());
}

#[test]
fn query_examples() {
    assert_stored("query_examples/stdout", queries::output());
}

#[test]
fn finder() {
    assert_stored("finder/stdout", model::job(&read("finder/stdin")));
}

/// Every job that is named, and every job is named.
#[test]
fn job_runs() {
    let arguments = String::from_utf8(read("job_runs/args")).expect("names");
    let names: Vec<&str> = arguments.split_whitespace().collect();
    let answers = jobs::answers(&path("job_runs/data"), &names);
    assert_stored("job_runs/stdout", answers);
    for name in inside("job_runs/data") {
        let is_named = names.contains(&name.as_str());
        assert!(
            is_named,
            "job_runs/data/{name} is not named in job_runs/args"
        );
    }
}

#[test]
fn large_jobs() {
    for (name, words) in jobs::large() {
        let file = format!("job_runs/data/{name}");
        let is_same = read(&file) == jobs::bytes(&words);
        assert!(
            is_same,
            "crates/{file} is not what `vectors job {name}` prints"
        );
    }
}

/// An output that is stored, and that no test above knows, nobody compares.
#[test]
fn no_stored_output_is_forgotten() {
    let stores = |name: &String| path(name).join("stdout").is_file();
    let found: Vec<String> = inside("").into_iter().filter(stores).collect();
    let known = [
        "check_examples",
        "finder",
        "history_examples",
        "job_runs",
        "placing_examples",
        "query_examples",
        "relations_examples",
    ];
    assert_eq!(found, known);
}

/// The names in a folder, in order.
fn inside(folder: &str) -> Vec<String> {
    let files = fs::read_dir(path(folder)).expect(folder);
    let mut names: Vec<String> = files
        .map(|file| {
            file.expect(folder)
                .file_name()
                .into_string()
                .expect("a name")
        })
        .collect();
    names.sort_unstable();
    names
}
