//! The book: the definitions that the contracts of the calls, the contract of the listing and the statements of the promises
//! name, with all that they name in turn. It is closed where none of them is a view or stands among the proofs, and whole where
//! the README lists its files and no others.

use crate::antt::{defining_lines, definitions, statement, words, Imports};
use crate::layout::files_under;
use crate::readme::{links, theorems, Theorem};
use std::collections::BTreeSet;
use std::fs::read_to_string;

const BELIEVED: &str = "What must be believed";
const PROMISES: &str = "Promises";
const SENTENCES: &str = "Definitions and document 01's sentences";

/// The faults of the book. Prints how many files and lines it has.
pub fn faults(most: usize) -> Vec<String> {
    let mut faults = Vec::new();
    let readme = read_to_string("README.md").unwrap_or_default();
    let mut todo = contract_files(&mut faults);
    todo.extend(promise_files(&readme, &mut faults));
    let book = closure(todo, &mut faults);
    faults.extend(theorems(&readme, SENTENCES).into_iter().filter_map(|law| missing(&law)));
    let listed: BTreeSet<String> =
        links(&readme, BELIEVED).into_iter().filter(|file| file.ends_with(".antt")).collect();
    faults.extend(book.difference(&listed).map(|file| format!("{file}: believed, but not in README's list")));
    faults.extend(
        listed.difference(&book).map(|file| format!("{file}: in README's list, but nothing names it")),
    );
    for file in files_under("crates", "antt") {
        if is_book(&file) && !is_node_file(&file) && !book.contains(&file) {
            faults.push(format!("{file}: in the book's folder, but nothing believed names it"));
        }
    }
    let lines: usize = book
        .iter()
        .filter(|file| is_book(file))
        .map(|file| defining_lines(&read_to_string(file).unwrap_or_default()))
        .sum();
    println!("the book: {} files, {lines} lines to be believed", book.len());
    if most < lines {
        faults.push(format!("the book has {lines} lines, more than {most}"));
    }
    faults
}

fn is_book(file: &str) -> bool {
    file.contains("/specs/") && !file.contains("/specs/views/")
}

fn is_node_file(file: &str) -> bool {
    file.ends_with("/Lib.antt") || file.ends_with("/specs/views.antt")
}

/// The files that the contracts of the library's calls and of the listing name.
fn contract_files(faults: &mut Vec<String>) -> Vec<String> {
    let mut named = Vec::new();
    let mut calls = 0;
    for file in
        files_under("crates/voltunnis/src", "rt").into_iter().chain(files_under("crates/output/src", "rt"))
    {
        let text = read_to_string(&file).unwrap_or_default();
        let imports = Imports::of(&text);
        for contract in contracts(&text) {
            calls += 1;
            named.extend(words(&contract).iter().filter_map(|word| imports.file_of(word)).cloned());
        }
    }
    if calls < 9 {
        faults.push(format!("{calls} contracts of calls were found, fewer than 9"));
    }
    named
}

/// The heads, with their contracts, of the functions that the outside calls: those of the library, and the listing.
fn contracts(text: &str) -> Vec<String> {
    let mut found = Vec::new();
    let lines: Vec<&str> = text.lines().collect();
    for (i, line) in lines.iter().enumerate() {
        if line.starts_with("pub extern \"C\" fn ") || line.starts_with("pub fn listing(") {
            let head: Vec<&str> = lines[i..].iter().take_while(|l| **l != "{").copied().collect();
            found.push(head.join("\n"));
        }
    }
    found
}

/// The files that the statements of the promises name.
fn promise_files(readme: &str, faults: &mut Vec<String>) -> Vec<String> {
    let mut named = Vec::new();
    for theorem in theorems(readme, PROMISES) {
        let text = read_to_string(&theorem.file).unwrap_or_default();
        let Some(said) = statement(&text, &theorem.name) else {
            faults.extend(missing(&theorem));
            continue;
        };
        let imports = Imports::of(&text);
        let local = definitions(&text);
        for word in words(&said) {
            if let Some(file) = imports.file_of(word) {
                named.push(file.clone());
            } else if local.contains(&word) && !binds(&said, word) {
                faults.push(format!(
                    "{}: {} names {word}, which is defined among the proofs",
                    theorem.file, theorem.name
                ));
            }
        }
    }
    named
}

/// The fault of a theorem that its file does not have.
fn missing(theorem: &Theorem) -> Option<String> {
    let text = read_to_string(&theorem.file).unwrap_or_default();
    let fault = || format!("README names {}, which {} does not have", theorem.name, theorem.file);
    statement(&text, &theorem.name).is_none().then(fault)
}

/// The statement binds the name itself, as in `(sheet : Sheet)`.
fn binds(said: &str, name: &str) -> bool {
    said.split(['(', '{']).any(|part| {
        part.split_once(" : ").is_some_and(|(names, _)| names.split_whitespace().any(|word| word == name))
    })
}

/// All files that are named, and those that they name in turn; a view, or a file of proofs, is a fault.
fn closure(mut todo: Vec<String>, faults: &mut Vec<String>) -> BTreeSet<String> {
    let mut book = BTreeSet::new();
    while let Some(file) = todo.pop() {
        if !book.insert(file.clone()) {
            continue;
        }
        if !is_book(&file) {
            faults.push(format!("{file}: believed, but it is no file of the book"));
            continue;
        }
        match read_to_string(&file) {
            Ok(text) => todo.extend(Imports::of(&text).files().iter().cloned()),
            Err(_) => faults.push(format!("{file}: named, but not there")),
        }
    }
    book
}
