//! The calls of the static library, from the crate `voltunnis`, each refusal as its number. They are
//! inlined, so that a program links only those that it calls.

use crate::results::{Built, GraphSize, PieceSize, Plain, Refusal, Run, SheetSize, Walk, Written};
pub use voltunnis::wait;

#[inline]
pub fn check_sheet(sheet: &[u8]) -> Result<SheetSize, Refusal> {
    voltunnis::check_sheet(sheet).map_err(u8::from)
}

#[inline]
pub fn check_piece(piece: &[u8]) -> Result<PieceSize, Refusal> {
    voltunnis::check_piece(piece).map_err(u8::from)
}

#[inline]
pub fn plain(sheet: &[u8], piece: &[u8]) -> Result<Plain, Refusal> {
    voltunnis::plain(sheet, piece).map_err(u8::from)
}

#[inline]
pub fn check_graph(sheet: &[u8], graph: &[u8]) -> Result<GraphSize, Refusal> {
    voltunnis::check_graph(sheet, graph).map_err(u8::from)
}

#[inline]
pub fn rewrite(sheet: &[u8], graph: &[u8], buffer: &mut [u8]) -> Result<Written, Refusal> {
    voltunnis::rewrite(sheet, graph, buffer).map_err(u8::from)
}

#[inline]
pub fn build(sheet: &[u8], buffer: &mut [u8]) -> Result<Built, Refusal> {
    voltunnis::build(sheet, buffer).map_err(u8::from)
}

#[inline]
pub fn check_order(table: &[u8]) -> Result<(), Refusal> {
    voltunnis::check_order(table).map_err(u8::from)
}

#[inline]
pub fn build_ordered(sheet: &[u8], table: &[u8], buffer: &mut [u8]) -> Result<Built, Refusal> {
    voltunnis::build_ordered(sheet, table, buffer).map_err(u8::from)
}

#[inline]
pub fn order(positions: &[u8], buffer: &mut [u8]) -> Result<Written, Refusal> {
    voltunnis::order(positions, buffer).map_err(u8::from)
}

#[inline]
pub fn tidy(sheet: &[u8], buffer: &mut [u8]) -> Result<Written, Refusal> {
    voltunnis::tidy(sheet, buffer).map_err(u8::from)
}

#[inline]
pub fn walk(sheet: &[u8], graph: &[u8], piece: &[u8]) -> Result<Walk, Refusal> {
    voltunnis::walk(sheet, graph, piece).map_err(u8::from)
}

#[inline]
pub fn walk_all(sheet: &[u8], graph: &[u8], pieces: &[u8], results: &mut [u8]) -> Result<Run, Refusal> {
    voltunnis::walk_all(sheet, graph, pieces, results).map_err(u8::from)
}
