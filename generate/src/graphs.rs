//! Random graphs for a sheet: those of another maker, and mangled ones.
//!
//! Another maker's graph asks the sheet's tests in any order, comes back to nodes, and cuts ids into
//! runs and the numbers of any gauges as it likes: apart, or into cases that overlap. A mangled graph has faults in single
//! fields, a damaged one in its bytes.

use crate::asked::Asked;
use crate::damage::damaged;
use crate::nodes::{graph_bytes, Case, Node};
use crate::random::Random;
use crate::stock::{GAUGES, IDS, NUMBERS, SERIES};
use std::collections::BTreeSet;

/// Ends of the number cases of a gauge, ascending by low, then high: apart, overlapping, or now and then very many.
fn numbers(random: &mut Random) -> BTreeSet<(u16, u16)> {
    match random.below(100) {
        0..=39 => apart(random, &NUMBERS),
        40..=97 => {
            let mut two = || (random.pick(&NUMBERS), random.pick(&NUMBERS));
            let ends: Vec<(u16, u16)> = (0..12).map(|_| two()).collect();
            let count = random.below(13);
            ends[..count].iter().map(|(one, other)| (*one.min(other), *one.max(other))).collect()
        }
        _ => {
            let cuts: BTreeSet<u16> = (0..28).map(|_| random.below(600) as u16).chain(NUMBERS).collect();
            let pairs = |low: u16| cuts.range(low..).map(move |high| (low, *high));
            cuts.iter().flat_map(|low| pairs(*low)).filter(|_| random.percent(90)).collect()
        }
    }
}

/// Ends of cases none of which has a number, or an id, of another.
fn apart(random: &mut Random, highs: &[u16]) -> BTreeSet<(u16, u16)> {
    let (mut ends, mut from) = (BTreeSet::new(), 0);
    for high in highs {
        if random.percent(40) && from <= u32::from(*high) {
            ends.insert((from as u16, *high));
            from = u32::from(*high) + 1 + random.below(2) as u32;
        }
    }
    ends
}

/// Ends of cases of symbols: single ids, or runs apart from each other.
fn symbols(random: &mut Random) -> BTreeSet<(u16, u16)> {
    match random.percent(40) {
        true => IDS.into_iter().filter(|_| random.percent(40)).map(|id| (id, id)).collect(),
        false => apart(random, &SERIES),
    }
}

/// Cases of all sorts in order, their nodes below this bound.
fn cases(random: &mut Random, bound: usize) -> Vec<Case> {
    let node = |random: &mut Random| random.below(bound) as u16;
    let mut cases = Vec::new();
    for (low, high) in symbols(random) {
        cases.push(Case::Symbols { low, high, node: node(random) });
    }
    for id in IDS {
        for arity in [0, 1, 2, 4, 255] {
            if random.percent(15) {
                cases.push(Case::Compound { id, arity, node: node(random) });
            }
        }
    }
    let others = if random.percent(50) { 0 } else { 40 };
    for gauge in GAUGES {
        if !random.percent(if gauge == 0 { 80 } else { others }) {
            continue;
        }
        for (low, high) in numbers(random) {
            cases.push(Case::Numbers { gauge, low, high, node: node(random) });
        }
    }
    if cases.is_empty() {
        let id = random.pick(&IDS);
        cases.push(Case::Symbols { low: id, high: id, node: node(random) });
    }
    cases
}

/// One node of another maker's graph.
fn node(random: &mut Random, sheet: &Asked, bound: usize) -> Node {
    let (places, pairs) = (&sheet.places, &sheet.pairs);
    let next = |random: &mut Random| random.below(bound) as u16;
    match random.below(12) {
        0 => Node::Fail,
        1 => Node::Suspend,
        2 | 3 if sheet.rules > 0 => Node::Execute(random.between(1, usize::from(sheet.rules)) as u8),
        4..=6 if !pairs.is_empty() => {
            let (p, q) = random.pick(pairs);
            Node::Pair { p, q, no: next(random), other: next(random) }
        }
        _ if !places.is_empty() => Node::Switch {
            place: random.pick(places),
            neither: next(random),
            unknown: next(random),
            cases: cases(random, bound),
        },
        _ => Node::Suspend,
    }
}

/// Another maker's graph: mostly small, now and then with the most nodes or one more.
pub fn foreign(random: &mut Random, sheet: &Asked) -> Vec<Node> {
    let count = match random.below(60) {
        0 => random.between(1020, 1025),
        1..=9 => random.between(20, 70),
        _ => random.between(1, 12),
    };
    (0..count).map(|_| node(random, sheet, count)).collect()
}

/// A node's number near the bound, or anywhere.
fn any_node(random: &mut Random, bound: usize) -> u16 {
    let bound = bound as u16;
    let anywhere = random.below(usize::from(bound)) as u16;
    random.pick(&[anywhere, anywhere, 0, bound - 1, bound, bound + 1, 0xffff])
}

fn any_place(random: &mut Random, sheet: &Asked) -> u16 {
    let paired = sheet.pairs.iter().flat_map(|(p, q)| [*p, *q]);
    let known: Vec<u16> = sheet.places.iter().copied().chain(paired).chain([0, 679, 680, 0xffff]).collect();
    random.pick(&known) ^ u16::from(random.percent(20))
}

/// Puts a fault, or a change that is none, in the cases of a switch.
fn mangle_cases(random: &mut Random, cases: &mut Vec<Case>, bound: usize) {
    let (a, b) = (random.below(cases.len()), random.below(cases.len()));
    match random.below(6) {
        0 => cases.swap(a, b),
        1 => cases.insert(a, cases[b]),
        2 if random.percent(30) => cases.clear(),
        3 => drop(cases.remove(a)),
        _ => match &mut cases[a] {
            Case::Symbols { low, high, .. } if random.percent(70) => {
                let end = if random.percent(50) { low } else { high };
                *end = random.pick(&SERIES);
            }
            Case::Compound { id, arity, .. } if random.percent(70) => {
                (*id, *arity) = (random.pick(&IDS), random.pick(&[0, 1, 2, 4, 5, 255]));
            }
            Case::Numbers { gauge, low, high, .. } if random.percent(80) => match random.below(3) {
                0 => *gauge = random.pick(&GAUGES),
                1 => *low = random.pick(&NUMBERS),
                _ => *high = random.pick(&NUMBERS),
            },
            Case::Symbols { node, .. } | Case::Compound { node, .. } | Case::Numbers { node, .. } => {
                *node = any_node(random, bound);
            }
        },
    }
}

/// Puts a fault, or a change that is none, in one node.
fn mangle(random: &mut Random, sheet: &Asked, nodes: &mut [Node]) {
    let bound = nodes.len();
    let rules = sheet.rules;
    match &mut nodes[random.below(bound)] {
        Node::Execute(rule) => *rule = random.pick(&[0, 1, rules, rules.saturating_add(1), 255]),
        Node::Switch { cases, .. } if cases.is_empty() => {}
        Node::Switch { place, neither, unknown, cases } => match random.below(6) {
            0 => *place = any_place(random, sheet),
            1 => *neither = any_node(random, bound),
            2 => *unknown = any_node(random, bound),
            _ => mangle_cases(random, cases, bound),
        },
        Node::Pair { p, q, no, other } => match random.below(5) {
            0 => *p = any_place(random, sheet),
            1 => *q = any_place(random, sheet),
            2 => std::mem::swap(p, q),
            3 => *no = any_node(random, bound),
            _ => *other = any_node(random, bound),
        },
        leaf => *leaf = node(random, sheet, bound),
    }
}

/// The nodes with one to three faults.
pub fn mangled(random: &mut Random, sheet: &Asked, nodes: &[Node]) -> Vec<Node> {
    let mut nodes = nodes.to_vec();
    for _ in 0..random.pick(&[1, 1, 2, 3]) {
        mangle(random, sheet, &mut nodes);
    }
    nodes
}

/// A graph's bytes: built, another maker's, mangled or damaged. The sheet's own graph is asked for only
/// where it is used; a sheet that has none gets another maker's.
pub fn graph(random: &mut Random, sheet: &Asked, own: impl FnOnce() -> Option<Vec<Node>>) -> Vec<u8> {
    let built = if random.percent(40) { own() } else { None };
    let nodes = built.unwrap_or_else(|| foreign(random, sheet));
    let bytes = |nodes: &[Node]| graph_bytes(sheet.arity, sheet.rules, nodes);
    match random.below(4) {
        0 => bytes(&nodes),
        1 => damaged(random, &bytes(&nodes)),
        _ => bytes(&mangled(random, sheet, &nodes)),
    }
}
