//! The walk over a graph: questions 26 and 27, and the answer.

use super::compare::{equal, Truth};
use super::graph::NodeStarts;
use super::piece::{Piece, LACKING, NOT_KNOWN};
use super::records::{self, ends, wide, Node, COMPOUND, COMPOUND_BYTES, COMPOUND_CASE, NEVER};
use super::records::{NUMBERS_BYTES, SPAN, SWITCH, SYMBOL, SYMBOLS_BYTES, SYMBOLS_CASE};
use super::rule::make;
use super::sheet::{RuleStarts, Sheet};
use super::variables::Variables;
use super::waits::for_live_rules;
use crate::results::{Answer, Refusal, Walk, Word};

/// The most edges that a walk may take.
const MOST_EDGES: usize = 64;

/// The way of a walk: its nodes, how many edges it took, the tests met that are not known, and whether a span was met.
struct Path {
    nodes: [u16; MOST_EDGES],
    edges: usize,
    not_known: u64,
    spans: bool,
}

impl Path {
    /// Meets a place; gives what `find` does, none if that is unknown. Question 27 is asked first.
    #[inline(always)]
    fn place(&mut self, sheet: &Sheet, piece: &Piece, place: usize) -> Result<Option<usize>, Refusal> {
        let offset = piece.find(place);
        if offset == LACKING {
            return Err(27);
        }
        if offset == NOT_KNOWN {
            self.not_known |= 1 << sheet.place_test(place);
            return Ok(None);
        }
        self.spans |= piece.bytes[offset] == SPAN;
        Ok(Some(offset))
    }

    /// Meets a pair; gives whether its terms differ. Question 27 is asked first.
    #[inline(always)]
    fn pair(&mut self, sheet: &Sheet, piece: &Piece, p: u16, q: u16) -> Result<bool, Refusal> {
        let (first, second) = (usize::from(p), usize::from(q));
        if piece.find(first) == LACKING || piece.find(second) == LACKING {
            return Err(27);
        }
        let truth = equal(piece, first, second);
        if truth == Truth::NotKnown {
            self.not_known |= 1 << sheet.pair_test(p, q);
        }
        Ok(truth == Truth::Contradicted)
    }
}

/// Walks an accepted graph from node 0.
pub fn walk(
    sheet: &Sheet,
    rules: &RuleStarts,
    graph: &[u8],
    nodes: &NodeStarts,
    piece: &Piece,
    variables: &mut Variables,
) -> Result<Answer, Refusal> {
    let mut node = 0;
    let mut path = Path { nodes: [0; MOST_EDGES], edges: 0, not_known: 0, spans: false };
    loop {
        let bytes = &graph[nodes[usize::from(node)] as usize..];
        let next = match records::node(bytes) {
            None => return Err(22),
            Some(Node::Fail) => return Ok(answer(Word::Fail, 0, path.edges, 0)),
            Some(Node::Suspend) => {
                if path.spans {
                    let met = &path.nodes[..path.edges];
                    path.not_known |= for_live_rules(sheet, rules, graph, nodes, met, piece, variables);
                }
                return Ok(answer(Word::Suspend, 0, path.edges, path.not_known));
            }
            Some(Node::Execute(rule)) => {
                let bytes = &sheet.bytes[rules[usize::from(rule) - 1] as usize..];
                return Ok(execute(bytes, sheet, piece, rule, path.edges, variables));
            }
            Some(_) if path.edges >= MOST_EDGES => return Err(26),
            Some(Node::Switch { place, cases, neither, unknown }) => {
                match path.place(sheet, piece, usize::from(place))? {
                    None => unknown,
                    Some(at) => take(&bytes[SWITCH..], usize::from(cases), piece.bytes, at, neither),
                }
            }
            Some(Node::Pair { p, q, no, other }) => {
                if path.pair(sheet, piece, p, q)? {
                    no
                } else {
                    other
                }
            }
        };
        path.nodes[path.edges] = node;
        path.edges += 1;
        node = next;
    }
}

#[inline(always)]
fn answer(word: Word, rule: u8, edges: usize, wait: u64) -> Answer {
    Answer { walk: Walk { word, rule, edges: edges as u8 }, wait }
}

/// The answer at execute: all tests of the rule are made, whose patterns begin these bytes.
fn execute(
    bytes: &[u8],
    sheet: &Sheet,
    piece: &Piece,
    rule: u8,
    edges: usize,
    variables: &mut Variables,
) -> Answer {
    match make(bytes, sheet, piece, variables) {
        None => answer(Word::Fail, 0, edges, 0),
        Some(made) if made.not_known == 0 => answer(Word::Commit, rule, edges, 0),
        Some(made) => answer(Word::Execute, rule, edges, made.not_known),
    }
}

/// The node of the case that takes the term at an offset of the piece, which is not unknown, else neither's. Symbols
/// come before compounds, compounds before numbers.
#[inline(always)]
fn take(cases: &[u8], count: usize, piece: &[u8], offset: usize, neither: u16) -> u16 {
    let kind = piece[offset];
    if kind == NEVER {
        return neither;
    }
    let field = wide(piece, offset + 1);
    let mut at = 0;
    let mut i = 0;
    while i < count && cases[at] == SYMBOLS_CASE {
        // Runs ascend: the first that does not end before the symbol has it, or none does.
        if kind == SYMBOL && field <= wide(cases, at + 3) {
            return if wide(cases, at + 1) <= field { wide(cases, at + 5) } else { neither };
        }
        at += SYMBOLS_BYTES;
        i += 1;
    }
    if kind == SYMBOL {
        return neither;
    }
    while i < count && cases[at] == COMPOUND_CASE {
        if kind == COMPOUND && wide(cases, at + 1) == field && cases[at + 3] == piece[offset + 3] {
            return wide(cases, at + 4);
        }
        at += COMPOUND_BYTES;
        i += 1;
    }
    if kind == COMPOUND {
        return neither;
    }
    let (first, last) = ends(piece, offset);
    narrowest(&cases[at..], count - i, first, last).unwrap_or(neither)
}

/// Gauge and both ends of a number case as one number, which ascends as the cases do.
#[inline(always)]
fn turn(cases: &[u8], case: usize) -> u64 {
    let at = NUMBERS_BYTES * case + 1;
    u64::from(cases[at]) << 32 | u64::from(wide(cases, at + 1)) << 16 | u64::from(wide(cases, at + 3))
}

/// The first of so many number cases that does not come before these ends, the low one on its gauge.
#[inline(always)]
fn first_from(cases: &[u8], count: usize, low: u64, high: u16) -> usize {
    let ends = low << 16 | u64::from(high);
    let (mut from, mut to) = (0, count);
    while from < to {
        let middle = (from + to) / 2;
        if turn(cases, middle) < ends {
            from = middle + 1;
        } else {
            to = middle;
        }
    }
    from
}

/// The node of the number case that has the highest low, then the lowest high, of those that contain all from
/// first to last, both on one gauge. Cases of one low are gone through by halves, from the highest low that may do
/// downwards to the last of that gauge.
fn narrowest(cases: &[u8], count: usize, first: u32, last: u32) -> Option<u16> {
    let mut below = first_from(cases, count, u64::from(first) + 1, 0);
    while below > 0 {
        let low = turn(cases, below - 1) >> 16;
        if low >> 16 != u64::from(first) >> 16 {
            break;
        }
        let case = first_from(cases, below, low, last as u16);
        if case < below {
            return Some(wide(cases, NUMBERS_BYTES * case + 6));
        }
        below = first_from(cases, below, low, 0);
    }
    None
}
