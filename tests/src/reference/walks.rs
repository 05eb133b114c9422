//! Many pieces for one check: a result of 16 bytes for each piece, as many as there is room for.

use super::nodes::Node;
use super::piece::Piece;
use super::sheet::Sheet;
use super::walk::walk;
use crate::results::{Answer, Refusal, Run};

/// The bytes of a result.
const RESULT: usize = 16;

/// The most results that a run's field takes.
const MOST_RESULTS: u32 = 0xff_ffff;

/// The bytes of a result: refusal, word, rule, edges, four zeros, and the wait list, highest byte first.
fn result(answered: Result<Answer, Refusal>) -> [u8; RESULT] {
    let mut bytes = [0; RESULT];
    match answered {
        Ok(Answer { walk, wait }) => {
            bytes[1..4].copy_from_slice(&[walk.word as u8, walk.rule, walk.edges]);
            bytes[8..].copy_from_slice(&wait.to_be_bytes());
        }
        Err(refusal) => bytes[0] = refusal,
    }
    bytes
}

/// The answer for a piece that was read: 20, then 26 and 27 along the way.
fn answer(sheet: &Sheet, nodes: &[Node], piece: &Piece) -> Result<Answer, Refusal> {
    if sheet.arity != piece.arity {
        return Err(20);
    }
    walk(sheet, nodes, piece)
}

/// Walks pieces one after another over an accepted graph. One that cannot be read gets the last result.
pub fn walk_all(sheet: &Sheet, nodes: &[Node], pieces: &[u8], results: &mut [u8]) -> Run {
    let mut run = Run { results: 0, bytes: 0 };
    for room in results.chunks_exact_mut(RESULT) {
        let rest = &pieces[run.bytes as usize..];
        if rest.is_empty() || run.results == MOST_RESULTS {
            break;
        }
        let read = Piece::read_first(rest);
        let used = read.as_ref().map_or(0, |(_, used)| *used);
        let Ok(bytes) = u32::try_from(run.bytes as usize + used) else { break };
        run = Run { results: run.results + 1, bytes };
        room.copy_from_slice(&result(
            read.as_ref().map_or_else(|refusal| Err(*refusal), |(piece, _)| answer(sheet, nodes, piece)),
        ));
        if read.is_err() {
            break;
        }
    }
    run
}
