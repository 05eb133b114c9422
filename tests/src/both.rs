//! Each call made twice, of the library and of the reference, with equal results.
//!
//! Every function panics with the bytes in hexadecimal if the two differ. They are inlined, so that
//! a program links only those functions of the library that it calls.

use crate::bytes::to_hex;
use crate::results::{Answer, Built, GraphSize, PieceSize, Plain, Refusal, Run, SheetSize, Written};
use crate::{reference, voltunnis};
pub use voltunnis_generate::stream::lent;

#[inline]
pub fn check_sheet(sheet: &[u8]) -> Result<SheetSize, Refusal> {
    let result = voltunnis::check_sheet(sheet);
    assert_eq!(result, reference::check_sheet(sheet), "library, reference: sheet {}", to_hex(sheet));
    result
}

#[inline]
pub fn check_piece(piece: &[u8]) -> Result<PieceSize, Refusal> {
    let result = voltunnis::check_piece(piece);
    assert_eq!(result, reference::check_piece(piece), "library, reference: piece {}", to_hex(piece));
    result
}

#[inline]
pub fn plain(sheet: &[u8], piece: &[u8]) -> Result<Plain, Refusal> {
    let result = voltunnis::plain(sheet, piece);
    assert_eq!(
        result,
        reference::plain(sheet, piece),
        "library, reference: sheet {} piece {}",
        to_hex(sheet),
        to_hex(piece)
    );
    result
}

#[inline]
pub fn check_graph(sheet: &[u8], graph: &[u8]) -> Result<GraphSize, Refusal> {
    let result = voltunnis::check_graph(sheet, graph);
    assert_eq!(
        result,
        reference::check_graph(sheet, graph),
        "library, reference: sheet {} graph {}",
        to_hex(sheet),
        to_hex(graph)
    );
    result
}

/// How many bytes after a lent buffer are watched.
const BEYOND: usize = 64;

/// Lends a call a buffer of this length; gives its result and the buffer. No byte beyond it changes.
#[inline]
pub fn lend<T>(len: usize, call: impl FnOnce(&mut [u8]) -> T) -> (T, Vec<u8>) {
    let mut bytes = lent(len + BEYOND);
    let result = call(&mut bytes[..len]);
    assert!(bytes[len..] == lent(len + BEYOND)[len..], "a byte beyond {len} changed");
    bytes.truncate(len);
    (result, bytes)
}

/// Rewrites a graph to a buffer of this length; gives the result and the buffer.
#[inline]
pub fn rewrite(sheet: &[u8], graph: &[u8], len: usize) -> (Result<Written, Refusal>, Vec<u8>) {
    let (result, buffer) = lend(len, |buffer| voltunnis::rewrite(sheet, graph, buffer));
    let (expected, bytes) = lend(len, |buffer| reference::rewrite(sheet, graph, buffer));
    let what =
        || format!("library, reference: sheet {} graph {} to {len} bytes", to_hex(sheet), to_hex(graph));
    assert_eq!(result, expected, "{}", what());
    assert!(buffer == bytes, "other bytes in the buffer: {}", what());
    (result, buffer)
}

/// More bytes than the graph of a sheet has, in a reading order if one is given; a hundred if it has none.
pub fn enough(sheet: &[u8], table: Option<&[u8]>) -> usize {
    reference::graph_in(sheet, table).map_or(0, |graph| graph.len()) + 100
}

/// Builds a graph in a buffer of this length; gives the result and the buffer.
#[inline]
pub fn build(sheet: &[u8], len: usize) -> (Result<Built, Refusal>, Vec<u8>) {
    let (result, buffer) = lend(len, |buffer| voltunnis::build(sheet, buffer));
    let (expected, bytes) = lend(len, |buffer| reference::build(sheet, buffer));
    let what = || format!("library, reference: sheet {} to {len} bytes", to_hex(sheet));
    assert_eq!(result, expected, "{}", what());
    assert!(buffer == bytes, "other bytes in the buffer: {}", what());
    (result, buffer)
}

#[inline]
pub fn check_order(table: &[u8]) -> Result<(), Refusal> {
    let result = voltunnis::check_order(table);
    assert_eq!(result, reference::check_order(table), "library, reference: table {}", to_hex(table));
    result
}

/// Builds a graph in a reading order in a buffer of this length; gives the result and the buffer.
#[inline]
pub fn build_ordered(sheet: &[u8], table: &[u8], len: usize) -> (Result<Built, Refusal>, Vec<u8>) {
    let (result, buffer) = lend(len, |buffer| voltunnis::build_ordered(sheet, table, buffer));
    let (expected, bytes) = lend(len, |buffer| reference::build_ordered(sheet, table, buffer));
    let what =
        || format!("library, reference: sheet {} table {} to {len} bytes", to_hex(sheet), to_hex(table));
    assert_eq!(result, expected, "{}", what());
    assert!(buffer == bytes, "other bytes in the buffer: {}", what());
    (result, buffer)
}

/// Writes the reading order of a list of track positions to a buffer of this length; gives the result and the
/// buffer.
#[inline]
pub fn order(positions: &[u8], len: usize) -> (Result<Written, Refusal>, Vec<u8>) {
    let (result, buffer) = lend(len, |buffer| voltunnis::order(positions, buffer));
    let (expected, bytes) = lend(len, |buffer| reference::order(positions, buffer));
    let what = || format!("library, reference: positions {} to {len} bytes", to_hex(positions));
    assert_eq!(result, expected, "{}", what());
    assert!(buffer == bytes, "other bytes in the buffer: {}", what());
    (result, buffer)
}

/// Tidies a sheet to a buffer of this length; gives the result and the buffer.
#[inline]
pub fn tidy(sheet: &[u8], len: usize) -> (Result<Written, Refusal>, Vec<u8>) {
    let (result, buffer) = lend(len, |buffer| voltunnis::tidy(sheet, buffer));
    let (expected, bytes) = lend(len, |buffer| reference::tidy(sheet, buffer));
    let what = || format!("library, reference: sheet {} to {len} bytes", to_hex(sheet));
    assert_eq!(result, expected, "{}", what());
    assert!(buffer == bytes, "other bytes in the buffer: {}", what());
    (result, buffer)
}

/// The tidy form of an accepted sheet, written to a buffer that is long enough: no record grows to more than
/// three times its length.
#[inline]
pub fn tidied(sheet: &[u8]) -> Vec<u8> {
    let (result, mut buffer) = tidy(sheet, 3 * sheet.len());
    let Written { bytes } = result.unwrap_or_else(|refusal| panic!("refused {refusal}: {}", to_hex(sheet)));
    buffer.truncate(bytes as usize);
    buffer
}

/// Walks a graph; the wait list is compared on refusals too.
#[inline]
pub fn walk(sheet: &[u8], graph: &[u8], piece: &[u8]) -> Result<Answer, Refusal> {
    let result = reference::walk(sheet, graph, piece);
    let what = || format!("sheet {} graph {} piece {}", to_hex(sheet), to_hex(graph), to_hex(piece));
    let walk = result.map(|answer| answer.walk);
    assert_eq!(voltunnis::walk(sheet, graph, piece), walk, "library, reference: {}", what());
    let wait = result.map_or(0, |answer| answer.wait);
    assert_eq!(voltunnis::wait(sheet, graph, piece), wait, "library's wait list, reference's: {}", what());
    result
}

/// Walks an accepted piece over the sheet's own graph; word and rule are the plain answer's.
#[inline]
#[track_caller]
pub fn walk_own(sheet: &[u8], piece: &[u8]) -> Answer {
    let graph = reference::own_graph(sheet).expect("a graph");
    let answer = walk(sheet, &graph, piece).expect("an answer");
    let said = Plain { word: answer.walk.word, rule: answer.walk.rule };
    assert_eq!(plain(sheet, piece), Ok(said), "sheet {} piece {}", to_hex(sheet), to_hex(piece));
    answer
}

/// Walks many pieces with results in a buffer of this length; gives how far it came and the buffer.
#[inline]
pub fn walk_all(sheet: &[u8], graph: &[u8], pieces: &[u8], len: usize) -> (Result<Run, Refusal>, Vec<u8>) {
    let (result, buffer) = lend(len, |buffer| voltunnis::walk_all(sheet, graph, pieces, buffer));
    let (expected, bytes) = lend(len, |buffer| reference::walk_all(sheet, graph, pieces, buffer));
    let what = || format!("sheet {} graph {} pieces {}", to_hex(sheet), to_hex(graph), to_hex(pieces));
    assert_eq!(result, expected, "library, reference: {} to {len} bytes", what());
    assert!(buffer == bytes, "other bytes in the buffer: {} to {len} bytes", what());
    (result, buffer)
}
