//! Reading a piece to a list of its terms: questions 12 to 17, and 32 after 16.
//!
//! Terms come in prefix order and places are numbered in preorder, so the list ascends by place,
//! and what stands at a place is found by halving.

use super::places::{argument, child, last_below};
use super::records::{Reader, TermRecord};
use crate::results::Refusal;

/// A term at its place. The terms below it follow it in the list.
#[derive(Clone, Copy)]
pub struct Cell {
    pub place: u16,
    /// The highest place at or below it.
    pub last: u16,
    /// How many cells the term takes, itself included.
    pub cells: u16,
    pub term: TermRecord,
}

/// An accepted piece.
pub struct Piece {
    pub arity: u8,
    pub cells: Vec<Cell>,
}

/// What a piece has at a place.
pub enum Found<'a> {
    /// The term there, its cell first. A place below an unknown, or below a reading that will never come, has that.
    Term(&'a [Cell]),
    /// The piece lacks it.
    Lacking,
}

/// Reads the term at a place: questions 14 to 16 and 32, then those of its arguments in turn.
fn term(from: &mut Reader, cells: &mut Vec<Cell>, place: u16, depth: usize) -> Result<(), Refusal> {
    let term_record = from.term().ok_or(14)?;
    let at = cells.len();
    cells.push(Cell { place, last: last_below(place, depth), cells: 1, term: term_record });
    if let TermRecord::Compound { arity, .. } = term_record {
        if depth > 3 {
            return Err(15);
        }
        if !(1..=4).contains(&arity) {
            return Err(16);
        }
        for j in 1..=arity {
            term(from, cells, child(place, depth, j), depth + 1)?;
        }
        cells[at].cells = (cells.len() - at) as u16;
    }
    match term_record {
        TermRecord::Span { low, high } if low > high => Err(32),
        _ => Ok(()),
    }
}

impl Piece {
    /// Reads the piece that ends with its last term at the start of these bytes: questions 12 to
    /// 16 and 32. Gives the number of bytes that it took as well.
    pub fn read_first(bytes: &[u8]) -> Result<(Piece, usize), Refusal> {
        let mut from = Reader::new(bytes);
        let [arity] = from.body_of(0x11).ok_or(12)?;
        if !(1..=8).contains(&arity) {
            return Err(13);
        }
        let mut cells = Vec::with_capacity(16);
        for a in 1..=arity {
            term(&mut from, &mut cells, argument(a), 1)?;
        }
        Ok((Piece { arity, cells }, bytes.len() - from.left()))
    }

    /// Reads these bytes as one piece: questions 12 to 17, and 32.
    pub fn read(bytes: &[u8]) -> Result<Piece, Refusal> {
        match Piece::read_first(bytes)? {
            (piece, used) if used == bytes.len() => Ok(piece),
            _ => Err(17),
        }
    }

    /// What the piece has at a place.
    pub fn find(&self, place: u16) -> Found<'_> {
        let after = self.cells.partition_point(|cell| cell.place <= place);
        let Some(at) = after.checked_sub(1) else {
            return Found::Lacking;
        };
        let cell = &self.cells[at];
        let missing = matches!(cell.term, TermRecord::Unknown | TermRecord::Never);
        if cell.place == place || missing && place <= cell.last {
            Found::Term(&self.cells[at..])
        } else {
            Found::Lacking
        }
    }
}
