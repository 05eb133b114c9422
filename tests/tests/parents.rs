//! The program that prints the parents of all places (document 02, request 13).

use std::fs;
use std::path::Path;
use std::process::{Command, Stdio};
use voltunnis_tests::programs::program;
use voltunnis_tests::reference::parents::parent_lines;

/// What the program prints with no input.
fn printed() -> String {
    let output = Command::new(program("parents")).stdin(Stdio::null()).output().expect("the program starts");
    assert!(output.status.success(), "{}", output.status);
    assert!(output.stderr.is_empty());
    String::from_utf8(output.stdout).expect("text")
}

#[test]
fn the_program_prints_the_reference_s_lines() {
    assert_eq!(printed(), parent_lines());
}

#[test]
fn the_stored_text_is_what_is_printed() {
    let stored = Path::new(env!("CARGO_MANIFEST_DIR")).join("../crates/parents/stdout");
    assert_eq!(fs::read_to_string(stored).expect("a text"), printed());
}

#[test]
fn there_are_680_lines_of_two_numbers_and_5210_bytes() {
    let text = printed();
    assert_eq!(text.len(), 5_210);
    assert!(text.ends_with('\n'));
    assert_eq!(text.lines().count(), 680);
    for (place, line) in text.lines().enumerate() {
        let (number, parent) = line.split_once(' ').expect("a space");
        assert_eq!(number, place.to_string());
        let parent: usize = parent.parse().expect("a number");
        assert_eq!(parent == 680, place % 85 == 0, "{line}");
        assert!(parent == 680 || parent < place, "{line}");
    }
}
