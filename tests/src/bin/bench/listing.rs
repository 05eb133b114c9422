//! The listing program against the reference as a program: both read sheet.bin and standard input, and print.

use crate::cases::Case;
use crate::table::Table;
use crate::timing::against;
use std::env;
use std::fs::{self, File};
use std::io::{self, Read};
use std::path::{Path, PathBuf};
use std::process::{Command, Stdio};
use voltunnis_tests::reference::listing::listing;

/// The word that makes this program the reference's listing.
pub const WORD: &str = "listing";

/// Each input is cut after so many bytes, so that pieces of more than 6 bytes are fewer than 10,000.
const INPUT: usize = 65_536;
const PIECES: usize = 10_000;

/// The reference's listing, as a program.
pub fn print() {
    let sheet = fs::read("sheet.bin").unwrap_or_default();
    let mut pieces = Vec::new();
    io::stdin().read_to_end(&mut pieces).expect("standard input");
    print!("{}", listing(&sheet, &pieces));
}

fn run(program: &Path, words: &[&str], folder: &Path) {
    let pieces = File::open(folder.join("pieces")).expect("a file");
    let mut command = Command::new(program);
    command.args(words).current_dir(folder).stdin(pieces).stdout(Stdio::null());
    assert!(command.status().expect("the program starts").success());
}

/// The row of one case: as many copies of its piece as an input takes, 10,000 at most.
pub fn row(table: &mut Table, Case { name, sheet, piece }: &Case) {
    let program: PathBuf = Path::new(env!("CARGO_MANIFEST_DIR")).join("../crates/listing/out/listing");
    let Ok(program) = program.canonicalize() else { return };
    let folder = env::temp_dir().join("voltunnis-bench");
    fs::create_dir_all(&folder).expect("a folder");
    let count = PIECES.min(INPUT / piece.len());
    fs::write(folder.join("sheet.bin"), sheet).expect("a file");
    fs::write(folder.join("pieces"), piece.repeat(count)).expect("a file");
    let this = env::current_exe().expect("a path");
    let times = against(|| run(&program, &[], &folder), || run(&this, &[WORD], &folder));
    table.row(name, "listing", &format!("{count} pieces"), times);
    fs::remove_dir_all(&folder).expect("a folder to remove");
}
