//! The listing: a line for the sheet, then one for each piece.

use super::piece::Piece;
use super::sheet::Sheet;
use super::{build, walk};
use crate::results::Refusal;
use std::fmt::Write;

/// Each input is cut after so many bytes, and the graph's buffer has as many.
const INPUT: usize = 65_536;

/// What the program prints for a sheet's bytes and those of its pieces, one after another.
pub fn listing(sheet: &[u8], pieces: &[u8]) -> String {
    let cut = |bytes: &[u8]| bytes.len().min(INPUT);
    let mut lines = String::new();
    if let Err(refusal) = list(&sheet[..cut(sheet)], &pieces[..cut(pieces)], &mut lines) {
        writeln!(lines, "refused {refusal}").expect("a string takes all");
    }
    lines
}

fn list(sheet: &[u8], mut pieces: &[u8], lines: &mut String) -> Result<(), Refusal> {
    let sheet = Sheet::read(sheet)?;
    let nodes = build::nodes(&sheet)?;
    build::write(&sheet, &nodes, &mut [0; INPUT])?;
    let (rules, tests) = (sheet.rules.len(), sheet.tests.count());
    writeln!(lines, "sheet {} {rules} {tests} {}", sheet.arity, nodes.len()).expect("a string takes all");
    let mut number = 0;
    while !pieces.is_empty() {
        let (piece, used) = Piece::read_first(pieces)?;
        if piece.arity != sheet.arity {
            return Err(20);
        }
        let answer = walk::walk(&sheet, &nodes, &piece)?;
        number += 1;
        writeln!(lines, "{number} {answer}").expect("a string takes all");
        pieces = &pieces[used..];
    }
    Ok(())
}
