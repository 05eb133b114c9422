//! Pieces that the library accepts, from text or bytes.

use super::refused;
use super::source::{Content, Source};
use super::stop::Stop;
use crate::locate::{self, Where};
use crate::notation::{parse_piece, parse_pieces, Names, Piece, Span, Term};
use voltunnis::check_piece;

/// An accepted piece with its bytes.
pub struct PieceInput {
    pub piece: Piece,
    pub bytes: Vec<u8>,
}

/// A piece that the library must accept, from a text by these names.
pub fn piece(name: &str, text: &str, names: &Names) -> Result<PieceInput, Stop> {
    let piece = parse_piece(text, names).map_err(|fault| refused::fault(name, text, &fault))?;
    accepted(name, text, piece)
}

/// A piece of a text, if the library accepts it.
fn accepted(name: &str, text: &str, piece: Piece) -> Result<PieceInput, Stop> {
    let bytes = piece.bytes();
    match check_piece(&bytes) {
        Ok(_) => Ok(PieceInput { piece, bytes }),
        Err(refusal) => {
            let span = term_part(&piece, locate::in_piece(&bytes, refusal));
            Err(refused::in_text(name, text, refusal, span))
        }
    }
}

/// The part of a piece's text that is meant.
fn term_part(piece: &Piece, place: Where) -> Span {
    fn nth(terms: &[Term], left: &mut usize) -> Option<Span> {
        for term in terms {
            if *left == 0 {
                return Some(term.at);
            }
            *left -= 1;
            if let Some(found) = nth(term.arguments(), left) {
                return Some(found);
            }
        }
        None
    }
    let Where::Record { mut index, .. } = place else { return piece.at };
    nth(&piece.terms, &mut index).unwrap_or(piece.at)
}

/// Pieces that the library must accept, one after another, and the names that hold among them.
pub fn pieces(source: &Source, names: &Names) -> Result<(Vec<PieceInput>, Names), Stop> {
    match &source.content {
        Content::Text(text) => {
            let parsed =
                parse_pieces(text, names).map_err(|fault| refused::fault(&source.name, text, &fault))?;
            let pieces = parsed.0.into_iter().map(|piece| accepted(&source.name, text, piece));
            Ok((pieces.collect::<Result<_, _>>()?, parsed.1))
        }
        Content::Bytes(bytes) => {
            let mut pieces = Vec::new();
            let mut rest = &bytes[..];
            while !rest.is_empty() {
                // What cannot be read as a piece is refused as a whole.
                let (one, later) = rest.split_at(Piece::length(rest).unwrap_or(rest.len()));
                check_piece(one).map_err(|refusal| {
                    let name = format!("{}, piece {}", source.name, pieces.len() + 1);
                    refused::in_bytes(&name, one, refusal, locate::in_piece(one, refusal))
                })?;
                let piece =
                    Piece::read(one).map_err(|_| Stop::internal("an accepted piece that cannot be read"))?;
                pieces.push(PieceInput { piece, bytes: one.to_vec() });
                rest = later;
            }
            Ok((pieces, names.clone()))
        }
    }
}

/// The bytes of pieces one after another, asked about nothing.
pub fn piece_bytes(source: &Source, names: &Names) -> Result<Vec<u8>, Stop> {
    match &source.content {
        Content::Text(text) => {
            let parsed =
                parse_pieces(text, names).map_err(|fault| refused::fault(&source.name, text, &fault))?;
            Ok(parsed.0.iter().flat_map(Piece::bytes).collect())
        }
        Content::Bytes(bytes) => Ok(bytes.clone()),
    }
}
