//! The fastest plain code for the calls: an anchor for speed, with no promise but that of its tests.
//!
//! It has no heap and no copy of a sheet, a piece or a graph: tables of fixed size hold offsets into the
//! bytes, and a rule is read again where its tests are made. Writing again, windows and the listing are
//! not here.

mod build;
mod compare;
mod graph;
mod pairs;
mod piece;
mod places;
mod plain;
mod records;
mod rule;
mod sheet;
mod tidy;
mod variables;
mod waits;
mod walk;
mod walks;

use crate::results::{Answer, Built, GraphSize, PieceSize, Plain, Refusal, Run, SheetSize, Written};
use graph::MOST_NODES;
use piece::Piece;
use sheet::{Sheet, MOST_RULES};
use variables::Variables;

/// Checks a sheet: questions 1 to 11.
pub fn check_sheet(sheet: &[u8]) -> Result<SheetSize, Refusal> {
    let mut sheet = Sheet::unread(sheet);
    sheet.read(&mut [0; MOST_RULES])?;
    Ok(SheetSize { arity: sheet.arity, rules: sheet.rules, tests: sheet.places + sheet.pair_count })
}

/// Checks a piece: questions 12 to 17, and 32.
pub fn check_piece(piece: &[u8]) -> Result<PieceSize, Refusal> {
    piece::check(piece).map(|arity| PieceSize { arity })
}

/// The plain answer: the sheet's questions, the piece's, then 20.
pub fn plain(sheet: &[u8], piece: &[u8]) -> Result<Plain, Refusal> {
    let (mut sheet, mut piece) = (Sheet::unread(sheet), Piece::unread(piece));
    let mut rules = [0; MOST_RULES];
    sheet.read(&mut rules)?;
    if piece.read()? != sheet.arity {
        return Err(20);
    }
    sheet.number_places();
    Ok(plain::answer(&sheet, &rules, &piece, &mut Variables::none()))
}

/// Checks a graph: the sheet's questions, then 21 to 25.
pub fn check_graph(sheet: &[u8], graph: &[u8]) -> Result<GraphSize, Refusal> {
    let mut sheet = Sheet::unread(sheet);
    sheet.read(&mut [0; MOST_RULES])?;
    let nodes = graph::read(graph, &sheet, &mut [0; MOST_NODES])?;
    Ok(GraphSize { nodes })
}

/// Builds a sheet's graph: the sheet's questions, then 18 and 19.
pub fn build(sheet: &[u8], buffer: &mut [u8]) -> Result<Built, Refusal> {
    let mut sheet = Sheet::unread(sheet);
    sheet.read(&mut [0; MOST_RULES])?;
    build::build(&sheet, buffer)
}

/// Writes a sheet's tidy form: the sheet's questions, then 31.
pub fn tidy(bytes: &[u8], buffer: &mut [u8]) -> Result<Written, Refusal> {
    let mut sheet = Sheet::unread(bytes);
    let mut rules = [0; MOST_RULES];
    sheet.read(&mut rules)?;
    let bytes = tidy::write(bytes, &rules[..usize::from(sheet.rules)], buffer)?;
    Ok(Written { bytes })
}

/// Walks a graph: the sheet's questions, the piece's, then 20 to 27.
pub fn walk(sheet: &[u8], graph: &[u8], piece: &[u8]) -> Result<Answer, Refusal> {
    let (mut sheet, mut piece) = (Sheet::unread(sheet), Piece::unread(piece));
    let mut rules = [0; MOST_RULES];
    sheet.read(&mut rules)?;
    if piece.read()? != sheet.arity {
        return Err(20);
    }
    let mut nodes = [0; MOST_NODES];
    graph::read(graph, &sheet, &mut nodes)?;
    sheet.number_places();
    walk::walk(&sheet, &rules, graph, &nodes, &piece, &mut Variables::none())
}

/// Walks many pieces: the sheet's questions, 21 to 25, then each piece's.
pub fn walk_all(sheet: &[u8], graph: &[u8], pieces: &[u8], results: &mut [u8]) -> Result<Run, Refusal> {
    let mut sheet = Sheet::unread(sheet);
    let mut rules = [0; MOST_RULES];
    sheet.read(&mut rules)?;
    let mut nodes = [0; MOST_NODES];
    graph::read(graph, &sheet, &mut nodes)?;
    sheet.number_places();
    Ok(walks::walk_all(&sheet, &rules, graph, &nodes, pieces, results))
}
