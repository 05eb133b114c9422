//! Many pieces for one check. The offsets of a piece's terms are cleared by the places that it used.

use super::graph::NodeStarts;
use super::piece::Piece;
use super::sheet::{RuleStarts, Sheet};
use super::variables::Variables;
use super::walk::walk;
use crate::results::{Answer, Refusal, Run};

/// The bytes of a result, and the most results that a run's field takes.
const RESULT: usize = 16;
const MOST_RESULTS: u32 = 0xff_ffff;

/// How many places an argument has at or below it.
const ARGUMENT: usize = 85;

/// Writes a result: refusal, word, rule, edges, four zeros, and the wait list, highest byte first.
#[inline(always)]
fn write(room: &mut [u8], answered: Result<Answer, Refusal>) {
    let (head, wait) = match answered {
        Ok(Answer { walk, wait }) => ([0, walk.word as u8, walk.rule, walk.edges, 0, 0, 0, 0], wait),
        Err(refusal) => ([refusal, 0, 0, 0, 0, 0, 0, 0], 0),
    };
    room[..8].copy_from_slice(&head);
    room[8..].copy_from_slice(&wait.to_be_bytes());
}

/// Walks pieces one after another over an accepted graph.
pub fn walk_all(
    sheet: &Sheet,
    rules: &RuleStarts,
    graph: &[u8],
    nodes: &NodeStarts,
    pieces: &[u8],
    results: &mut [u8],
) -> Run {
    let mut run = Run { results: 0, bytes: 0 };
    let mut piece = Piece::unread(pieces);
    let mut variables = Variables::none();
    for room in results.chunks_exact_mut(RESULT) {
        if piece.bytes.is_empty() || run.results == MOST_RESULTS {
            break;
        }
        let (arity, used) = match piece.read_first() {
            Ok(read) => read,
            Err(refusal) => {
                write(room, Err(refusal));
                run.results += 1;
                break;
            }
        };
        let Ok(bytes) = u32::try_from(run.bytes as usize + used) else { break };
        run = Run { results: run.results + 1, bytes };
        let answered = match arity == sheet.arity {
            true => walk(sheet, rules, graph, nodes, &piece, &mut variables),
            false => Err(20),
        };
        write(room, answered);
        piece.offsets[..usize::from(arity) * ARGUMENT].fill(0);
        piece.nevers = false;
        piece.bytes = &piece.bytes[used..];
    }
    run
}
