//! What the gate asks of the repository itself, run from its top folder:
//!
//!     gate book MOST    the book is closed, whole in the README, and has at most MOST lines
//!     gate layout       widths, lengths and first lines of files; no Rust file that nothing compiles
//!
//! Exit status 0 where all is well; else each fault is a line, and the status is 1.

mod antt;
mod book;
mod layout;
mod readme;
mod rust;

use std::io::{stdout, Write};
use std::process::ExitCode;

fn main() -> ExitCode {
    let words: Vec<String> = std::env::args().skip(1).collect();
    let words: Vec<&str> = words.iter().map(String::as_str).collect();
    let faults = match words.as_slice() {
        ["book", most] => match most.parse() {
            Ok(most) => book::faults(most),
            Err(_) => return usage(),
        },
        ["layout"] => layout::faults().into_iter().chain(rust::faults()).collect(),
        _ => return usage(),
    };
    let mut output = stdout().lock();
    for fault in &faults {
        if writeln!(output, "{fault}").is_err() {
            break;
        }
    }
    if faults.is_empty() {
        ExitCode::SUCCESS
    } else {
        ExitCode::FAILURE
    }
}

fn usage() -> ExitCode {
    eprintln!("usage: gate book MOST | gate layout");
    ExitCode::from(2)
}
