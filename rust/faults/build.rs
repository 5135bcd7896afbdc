//! Writes a copy of the model for each fault of `list.rs`, with the fault in it.
//! Files that do not lean on the faulty one are the model's own.

use std::path::{Path, PathBuf};
use std::{env, fs};

include!("list.rs");

/// The files of the model that state the papers' calls. Each leans only on
/// files before it.
const FILES: [&str; 16] = [
    "sizes",
    "refusals",
    "rectangles",
    "codes",
    "relations",
    "clauses",
    "inside",
    "pages",
    "soundness",
    "placing",
    "queries",
    "fractions",
    "outlines",
    "tiles",
    "turning",
    "nearest",
];

fn main() {
    let model = Path::new("../model/src");
    let out = PathBuf::from(env::var_os("OUT_DIR").expect("OUT_DIR"));
    println!("cargo:rerun-if-changed=list.rs");
    println!("cargo:rerun-if-changed={}", model.display());
    let texts: Vec<String> = FILES.iter().map(|file| code_of(model, file)).collect();
    let mut modules = String::new();
    for (number, fault) in FAULTS.iter().enumerate() {
        let directory = out.join(format!("fault_{number}"));
        modules += &copy(number, fault, &texts, &directory);
    }
    let numbers: String = (0..FAULTS.len()).map(|n| format!("fault_{n}, ")).collect();
    modules += &format!("every!({numbers});\n");
    fs::write(out.join("modules.rs"), modules).expect("modules.rs is written");
}

/// The text of a file without its tests, which follow the code.
fn code_of(model: &Path, file: &str) -> String {
    let path = model.join(file).with_extension("rs");
    let text = fs::read_to_string(path).expect("a file of the model");
    match text.split_once("#[cfg(test)]") {
        Some((code, _)) => code.to_string(),
        None => text,
    }
}

/// Writes the files that the fault changes or that lean on these, and returns
/// a module in which all files find each other by `super`.
fn copy(number: usize, fault: &Fault, texts: &[String], directory: &Path) -> String {
    fs::create_dir_all(directory).expect("a directory for the copy");
    let mut copied: Vec<&str> = Vec::new();
    let mut module = format!("pub mod fault_{number} {{\n");
    module += &format!("    pub const NAME: &str = {:?};\n", fault.0);
    for (file, text) in FILES.iter().zip(texts) {
        let is_faulty = *file == fault.1;
        if is_faulty || copied.iter().any(|other| leans_on(text, other)) {
            let path = directory.join(file).with_extension("rs");
            let text = if is_faulty {
                with_fault(text, fault)
            } else {
                text.clone()
            };
            fs::write(&path, text).expect("a file of the copy");
            module += "    #[allow(unused, clippy::all)]\n";
            module += &format!("    #[path = {path:?}]\n    pub mod {file};\n");
            copied.push(file);
        } else {
            module += &format!("    pub use model::{file};\n");
        }
    }
    module + "}\n"
}

fn leans_on(text: &str, file: &str) -> bool {
    let single = format!("use super::{file};");
    let some = format!("use super::{file}::");
    text.contains(&single) || text.contains(&some)
}

fn with_fault(text: &str, (name, file, right, wrong): &Fault) -> String {
    let times = text.matches(right).count();
    assert_eq!(times, 1, "{name}: times that {right:?} occurs in {file}");
    text.replace(right, wrong)
}
