//! Reading a graph with the sheet that it is for: questions 21 to 25.

use super::nodes::{Case, Node};
use super::records::{wide, Reader};
use super::sheet::Sheet;
use crate::results::Refusal;

/// The most nodes that a graph may have.
pub const MOST_NODES: u16 = 1024;

/// Question 23: are the node's nodes and rule in range, its place or pair among the sheet's tests?
fn in_range(node: &Node, sheet: &Sheet, count: u16) -> bool {
    match node {
        Node::Fail | Node::Suspend => true,
        Node::Execute(rule) => (1..=sheet.rules.len()).contains(&usize::from(*rule)),
        Node::Switch { place, neither, unknown, cases } => {
            sheet.tests.places.binary_search(place).is_ok()
                && [*neither, *unknown].iter().all(|node| *node < count)
                && cases.iter().all(|case| case.node() < count)
        }
        Node::Pair { p, q, no, other } => {
            sheet.tests.pairs.binary_search(&(*p, *q)).is_ok() && *no < count && *other < count
        }
    }
}

/// Whether the second case may follow the first.
fn ascending(first: &Case, second: &Case) -> bool {
    use Case::{Compound, Numbers, Symbols};
    match (first, second) {
        (Symbols { high, .. }, Symbols { low, .. }) => high < low,
        (Symbols { .. }, _) => true,
        (Compound { id: f, arity: j, .. }, Compound { id: g, arity: k, .. }) => (f, j) < (g, k),
        (Compound { .. }, Numbers { .. }) => true,
        (Numbers { gauge: g, low: a, high: b, .. }, Numbers { gauge: h, low: c, high: d, .. }) => {
            (g, a, b) < (h, c, d)
        }
        _ => false,
    }
}

/// Question 24: are cases strictly ascending, numbers by gauge, low, then high, low at most high, and no id in two?
fn in_order(node: &Node) -> bool {
    let Node::Switch { cases, .. } = node else {
        return true;
    };
    let reversed = |case: &Case| match case {
        Case::Symbols { low, high, .. } | Case::Numbers { low, high, .. } => low > high,
        Case::Compound { .. } => false,
    };
    !cases.iter().any(reversed) && cases.windows(2).all(|two| ascending(&two[0], &two[1]))
}

/// The nodes of a graph for an accepted sheet: questions 21 to 25.
pub fn read(sheet: &Sheet, graph: &[u8]) -> Result<Vec<Node>, Refusal> {
    let mut from = Reader::new(graph);
    let [arity, rules, high, low] = from.body_of(0x12).ok_or(21)?;
    let count = wide(high, low);
    if arity != sheet.arity || usize::from(rules) != sheet.rules.len() || !(1..=MOST_NODES).contains(&count) {
        return Err(21);
    }
    let mut nodes = Vec::with_capacity(usize::from(count));
    for _ in 0..count {
        let node = Node::read(&mut from).ok_or(22)?;
        if !in_range(&node, sheet, count) {
            return Err(23);
        }
        if !in_order(&node) {
            return Err(24);
        }
        nodes.push(node);
    }
    if from.left() > 0 {
        return Err(25);
    }
    Ok(nodes)
}
