//! A graph's questions, 21 to 25, and where its nodes stand.

use super::pairs::{self, pair};
use super::places;
use super::records::{self, on_gauge, wide, Case, Node};
use super::records::{COMPOUND_BYTES, NUMBERS_BYTES, SWITCH, SYMBOLS_BYTES};
use super::sheet::Sheet;
use crate::results::Refusal;

/// The most nodes that a graph may have.
pub const MOST_NODES: usize = 1024;

/// The first byte of each node.
pub type NodeStarts = [u32; MOST_NODES];

/// Asks the questions and notes where each node stands; gives the number of nodes.
pub fn read(graph: &[u8], sheet: &Sheet, starts: &mut NodeStarts) -> Result<u16, Refusal> {
    if graph.len() < 5 || graph[0] != 0x12 || graph[1] != sheet.arity || graph[2] != sheet.rules {
        return Err(21);
    }
    let count = wide(graph, 3);
    if !(1..=MOST_NODES).contains(&usize::from(count)) {
        return Err(21);
    }
    let mut at = 5;
    for start in &mut starts[..usize::from(count)] {
        *start = at as u32;
        at += node(&graph[at..], sheet, count)?;
    }
    if at != graph.len() {
        return Err(25);
    }
    Ok(count)
}

/// Asks a node's questions, 22 to 24; gives how many bytes it has.
#[inline(always)]
fn node(bytes: &[u8], sheet: &Sheet, count: u16) -> Result<usize, Refusal> {
    match records::node(bytes) {
        None => Err(22),
        Some(Node::Fail | Node::Suspend) => Ok(1),
        Some(Node::Execute(rule)) => {
            if rule < 1 || rule > sheet.rules {
                return Err(23);
            }
            Ok(2)
        }
        Some(Node::Switch { place, cases, neither, unknown }) => {
            if cases == 0 {
                return Err(22);
            }
            let cases = self::cases(&bytes[SWITCH..], cases).ok_or(22)?;
            let nodes_in_range = neither < count && unknown < count && cases.highest < count;
            if !nodes_in_range || !places::holds(&sheet.tested, place) {
                return Err(23);
            }
            if !cases.in_order {
                return Err(24);
            }
            Ok(SWITCH + cases.used)
        }
        Some(Node::Pair { p, q, no, other }) => {
            let known = |pair| pairs::holds(&sheet.pairs, usize::from(sheet.pair_count), pair);
            if no >= count || other >= count || !known(pair(p, q)) {
                return Err(23);
            }
            Ok(9)
        }
    }
}

/// The cases of a switch: how many bytes they have, the highest node named, and question 24's answer.
#[derive(Clone, Copy)]
struct Cases {
    used: usize,
    highest: u16,
    in_order: bool,
}

/// Reads so many cases; none if one is cut or of another kind. What a case takes is a run of codes,
/// symbols before compounds before numbers, so that cases are in order where runs ascend by first and last, and those
/// of symbols have no code in common.
fn cases(bytes: &[u8], count: u16) -> Option<Cases> {
    let mut cases = Cases { used: 0, highest: 0, in_order: true };
    let mut least: u64 = 0;
    for _ in 0..count {
        let (first, last, node): (u32, u32, u16);
        let turn = |first: u32, last: u32| u64::from(first) << 32 | u64::from(last);
        let next;
        match records::case(&bytes[cases.used..])? {
            Case::Symbols(low, high, to) => {
                (first, last, node) = (low.into(), high.into(), to);
                next = turn(last + 1, 0);
                cases.used += SYMBOLS_BYTES;
            }
            Case::Compound(id, arity, to) => {
                first = 1 << 24 | u32::from(id) << 8 | u32::from(arity);
                (last, node) = (first, to);
                next = turn(first, last + 1);
                cases.used += COMPOUND_BYTES;
            }
            Case::Numbers(gauge, low, high, to) => {
                (first, last, node) = (2 << 24 | on_gauge(gauge, low), 2 << 24 | on_gauge(gauge, high), to);
                next = turn(first, last + 1);
                cases.used += NUMBERS_BYTES;
            }
        }
        cases.in_order &= turn(first, last) >= least && first <= last;
        least = next;
        if node > cases.highest {
            cases.highest = node;
        }
    }
    Some(cases)
}
