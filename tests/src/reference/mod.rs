//! A second implementation of document 01 and of requests of document 02, written from their text alone.
//!
//! A sheet is read to the tests of its rules, a piece to a list of its terms ascending by place.
//! Questions are asked in the order in which the bytes are read; the first no is handed back.

pub mod build;
pub mod cases;
pub mod graph;
pub mod keys;
pub mod listing;
pub mod order;
pub mod parents;
pub mod piece;
pub mod places;
pub mod plain;
pub mod sheet;
pub mod tidy;
pub mod track;
pub mod truth;
pub mod variables;
pub mod walk;
pub mod walks;
pub mod window;

pub use track::order;
pub use voltunnis_generate::{nodes, records};

use crate::generate::trees::SheetTree;
use crate::results::{Answer, Built, GraphSize, PieceSize, Plain, Refusal, Run, SheetSize, Written};
use piece::Piece;
use sheet::Sheet;

/// Checks a sheet: questions 1 to 11.
pub fn check_sheet(sheet: &[u8]) -> Result<SheetSize, Refusal> {
    let sheet = Sheet::read(sheet)?;
    Ok(SheetSize { arity: sheet.arity, rules: sheet.rules.len() as u8, tests: sheet.tests.count() as u8 })
}

/// Checks a piece: questions 12 to 17, and 32.
pub fn check_piece(piece: &[u8]) -> Result<PieceSize, Refusal> {
    Piece::read(piece).map(|piece| PieceSize { arity: piece.arity })
}

/// The plain answer: the sheet's questions, the piece's, then 20.
pub fn plain(sheet: &[u8], piece: &[u8]) -> Result<Plain, Refusal> {
    let (sheet, piece) = (Sheet::read(sheet)?, Piece::read(piece)?);
    if sheet.arity != piece.arity {
        return Err(20);
    }
    Ok(plain::answer(&sheet, &piece))
}

/// Checks a graph: the sheet's questions, then 21 to 25.
pub fn check_graph(sheet: &[u8], graph: &[u8]) -> Result<GraphSize, Refusal> {
    let nodes = graph::read(&Sheet::read(sheet)?, graph)?;
    Ok(GraphSize { nodes: nodes.len() as u16 })
}

/// Writes a graph's nodes again: the sheet's questions, 21 to 25, then 19.
pub fn rewrite(sheet: &[u8], graph: &[u8], buffer: &mut [u8]) -> Result<Written, Refusal> {
    let sheet = Sheet::read(sheet)?;
    let nodes = graph::read(&sheet, graph)?;
    Ok(Written { bytes: build::write(&sheet, &nodes, buffer)? })
}

/// Builds a sheet's graph: the sheet's questions, then 18 and 19.
pub fn build(sheet: &[u8], buffer: &mut [u8]) -> Result<Built, Refusal> {
    let sheet = Sheet::read(sheet)?;
    let nodes = build::nodes(&sheet)?;
    Ok(Built { nodes: nodes.len() as u16, bytes: build::write(&sheet, &nodes, buffer)? })
}

/// Checks a reading order: questions 28 to 30.
pub fn check_order(table: &[u8]) -> Result<(), Refusal> {
    order::read(table).map(drop)
}

/// The nodes of a sheet's graph in a reading order: 28 to 30, then 18.
fn ordered(sheet: &Sheet, table: &[u8]) -> Result<Vec<nodes::Node>, Refusal> {
    let order = order::asking(order::read(table)?, &sheet.tests);
    build::nodes_in(sheet, order, graph::MOST_NODES)
}

/// Builds a sheet's graph in a reading order: the sheet's questions, 28 to 30, then 18 and 19.
pub fn build_ordered(sheet: &[u8], table: &[u8], buffer: &mut [u8]) -> Result<Built, Refusal> {
    let sheet = Sheet::read(sheet)?;
    let nodes = ordered(&sheet, table)?;
    Ok(Built { nodes: nodes.len() as u16, bytes: build::write(&sheet, &nodes, buffer)? })
}

/// Writes a sheet's tidy form: the sheet's questions, then 31.
pub fn tidy(sheet: &[u8], buffer: &mut [u8]) -> Result<Written, Refusal> {
    Sheet::read(sheet)?;
    let (tree, _) = SheetTree::read(sheet).expect("an accepted sheet can be read");
    let bytes = tidy::sheet(&tree).bytes();
    buffer.get_mut(..bytes.len()).ok_or(31)?.copy_from_slice(&bytes);
    Ok(Written { bytes: bytes.len() as u32 })
}

/// Walks a graph: the sheet's questions, the piece's, then 20 to 27.
pub fn walk(sheet: &[u8], graph: &[u8], piece: &[u8]) -> Result<Answer, Refusal> {
    let (sheet, piece) = (Sheet::read(sheet)?, Piece::read(piece)?);
    if sheet.arity != piece.arity {
        return Err(20);
    }
    let nodes = graph::read(&sheet, graph)?;
    walk::walk(&sheet, &nodes, &piece)
}

/// Walks many pieces: the sheet's questions, 21 to 25, then each piece's.
pub fn walk_all(sheet: &[u8], graph: &[u8], pieces: &[u8], results: &mut [u8]) -> Result<Run, Refusal> {
    let sheet = Sheet::read(sheet)?;
    let nodes = graph::read(&sheet, graph)?;
    Ok(walks::walk_all(&sheet, &nodes, pieces, results))
}

/// The bytes of a sheet's graph, in a reading order if one is given; none if a question gets a no.
pub fn graph_in(sheet: &[u8], table: Option<&[u8]>) -> Option<Vec<u8>> {
    let sheet = Sheet::read(sheet).ok()?;
    let nodes = table.map_or_else(|| build::nodes(&sheet), |table| ordered(&sheet, table)).ok()?;
    Some(nodes::graph_bytes(sheet.arity, sheet.rules.len() as u8, &nodes))
}

/// The bytes of a sheet's graph, if the sheet is accepted and has one.
pub fn own_graph(sheet: &[u8]) -> Option<Vec<u8>> {
    graph_in(sheet, None)
}
