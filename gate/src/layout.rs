//! The layout of files: lines of code and definitions of at most 132 characters, files of at most 300 lines, and a comment in the
//! first line that says what a file is.

use std::fs::{read_dir, read_to_string};
use std::path::Path;

const WIDEST: usize = 132;
const LONGEST: usize = 300;

/// Document 01 names this table as one constant array of 680 numbers, and the formatter puts a number on a line.
const TABLE: &str = "crates/places/src/table.rt";

/// The faults of the layout.
pub fn faults() -> Vec<String> {
    let mut faults = Vec::new();
    for file in files_under("crates", "antt").into_iter().chain(files_under("crates", "rt")) {
        let text = read_to_string(&file).unwrap_or_default();
        let is_proof = file.contains("/proofs/");
        for (i, line) in text.lines().enumerate() {
            if !is_proof && WIDEST < line.chars().count() {
                faults.push(format!("{file}:{}: more than {WIDEST} characters", i + 1));
            }
        }
        if LONGEST < text.lines().count() && file != TABLE {
            faults.push(format!("{file}: more than {LONGEST} lines"));
        }
        if !text.starts_with("--") && !text.starts_with("//") {
            faults.push(format!("{file}: its first line does not say what it is"));
        }
    }
    faults
}

/// The files below a folder with this ending, in order; what cargo and rt make is passed over.
pub fn files_under(folder: &str, ending: &str) -> Vec<String> {
    let mut found = Vec::new();
    let Ok(entries) = read_dir(folder) else { return found };
    let mut paths: Vec<_> = entries.flatten().map(|entry| entry.path()).collect();
    paths.sort();
    for path in paths {
        let name = path.to_string_lossy().into_owned();
        if path.is_dir() {
            if path.file_name().is_some_and(|name| name != "target" && name != "out") {
                found.extend(files_under(&name, ending));
            }
        } else if Path::new(&name).extension().is_some_and(|e| e == ending) {
            found.push(name);
        }
    }
    found
}
