//! Graphs made simpler: fewer nodes, leaves in the stead of switches and pairs, fewer cases.

use super::{parts, sheets};
use crate::asked::Asked;
use crate::nodes::{Case, GraphNodes, Node};
use crate::trees::SheetTree;
use std::collections::BTreeSet;
use std::ops::Range;

/// A way to make a graph simpler.
#[derive(Clone, Debug)]
pub enum Step {
    /// Without these nodes.
    Nodes(Range<usize>),
    /// A leaf in the stead of a node.
    Leaf(usize, Node),
    /// Without these cases of a switch.
    Cases(usize, Range<usize>),
    /// Another case in the stead of one of a switch, with the same node.
    Case(usize, usize, Instead),
    /// Every edge of a node to one node.
    Edges(usize, u16),
}

/// What a case is made: a compound's, which is the shortest, a symbol's, one of its low end alone, or one on gauge 0.
#[derive(Clone, Copy, Debug)]
pub enum Instead {
    Compound,
    Symbol,
    Low,
    Gauge,
}

impl Instead {
    const ALL: [Instead; 4] = [Instead::Compound, Instead::Symbol, Instead::Low, Instead::Gauge];

    /// The case that comes in the stead of this one.
    fn of(self, case: &Case) -> Case {
        let node = case.node();
        match (self, *case) {
            (Instead::Compound, _) => Case::Compound { id: 0, arity: 0, node },
            (Instead::Low, Case::Symbols { low, .. }) => Case::Symbols { low, high: low, node },
            (Instead::Low, Case::Numbers { gauge, low, .. }) => Case::Numbers { gauge, low, high: low, node },
            (Instead::Gauge, Case::Numbers { low, high, .. }) => Case::Numbers { gauge: 0, low, high, node },
            _ => Case::Symbols { low: 0, high: 0, node },
        }
    }
}

/// Does the same to each edge of a node.
fn visit(node: &mut Node, change: &mut dyn FnMut(&mut u16)) {
    match node {
        Node::Fail | Node::Suspend | Node::Execute(_) => {}
        Node::Switch { neither, unknown, cases, .. } => {
            change(neither);
            change(unknown);
            for case in cases {
                let (Case::Symbols { node, .. } | Case::Compound { node, .. } | Case::Numbers { node, .. }) =
                    case;
                change(node);
            }
        }
        Node::Pair { no, other, .. } => {
            change(no);
            change(other);
        }
    }
}

/// The steps within one node.
fn of_node((at, node): (usize, &Node)) -> impl Iterator<Item = Step> {
    let (leaves, cases) = match node {
        Node::Fail => (vec![], 0),
        Node::Suspend | Node::Execute(_) => (vec![Node::Fail, Node::Suspend], 0),
        Node::Switch { cases, .. } => (vec![Node::Fail, Node::Suspend, Node::Execute(1)], cases.len()),
        Node::Pair { .. } => (vec![Node::Fail, Node::Suspend, Node::Execute(1)], 0),
    };
    let leaves = leaves.into_iter().map(move |leaf| Step::Leaf(at, leaf));
    let others = (0..cases).flat_map(move |case| Instead::ALL.map(|instead| Step::Case(at, case, instead)));
    let cases = parts(cases).map(move |part| Step::Cases(at, part));
    leaves.chain(cases).chain(others).chain([0, 1].map(|node| Step::Edges(at, node)))
}

/// Among more nodes than these, single ones are left alone.
const FEW: usize = 64;

/// All steps to try, those that leave out most first.
pub fn steps(graph: &GraphNodes) -> impl Iterator<Item = Step> + '_ {
    let least = graph.nodes.len() / (FEW + 1);
    let fewer = parts(graph.nodes.len()).filter(move |part| part.len() > least).map(Step::Nodes);
    let few = if least == 0 { &graph.nodes[..] } else { &[] };
    fewer.chain(few.iter().enumerate().flat_map(of_node))
}

/// The nodes without these: what led to one of them leads to the first leaf that is left.
fn without(nodes: &[Node], part: &Range<usize>) -> Option<Vec<Node>> {
    nodes.get(part.clone())?;
    let mut left = nodes.to_vec();
    left.drain(part.clone());
    let leaf = left.iter().position(|node| matches!(node, Node::Fail | Node::Suspend | Node::Execute(_)));
    let leaf = leaf.unwrap_or(0) as u16;
    for node in &mut left {
        visit(node, &mut |edge| {
            *edge = match usize::from(*edge) {
                to if to < part.start => *edge,
                to if to < part.end => leaf,
                _ => *edge - part.len() as u16,
            }
        });
    }
    Some(left)
}

/// The graph after a step, if it can be made.
pub fn after(graph: &GraphNodes, step: &Step) -> Option<GraphNodes> {
    let mut graph = graph.clone();
    match step {
        Step::Nodes(part) => graph.nodes = without(&graph.nodes, part)?,
        Step::Leaf(at, leaf) => *graph.nodes.get_mut(*at)? = leaf.clone(),
        Step::Cases(at, part) => {
            let Node::Switch { cases, .. } = graph.nodes.get_mut(*at)? else { return None };
            cases.get(part.clone())?;
            cases.drain(part.clone());
        }
        Step::Case(at, case, instead) => {
            let Node::Switch { cases, .. } = graph.nodes.get_mut(*at)? else { return None };
            let case = cases.get_mut(*case)?;
            *case = instead.of(case);
        }
        Step::Edges(at, node) => visit(graph.nodes.get_mut(*at)?, &mut |edge| *edge = *node),
    }
    Some(graph)
}

/// A place of the sheet before a step, after it: the one of the same rank, if they are as many, else the
/// one that an argument left out moves it to.
fn moved(place: u16, before: &[u16], after: &[u16], step: &sheets::Step) -> u16 {
    if let (Ok(rank), true) = (before.binary_search(&place), before.len() == after.len()) {
        return after[rank];
    }
    match step {
        sheets::Step::Argument(at) if usize::from(place / ARGUMENT) > *at => place - ARGUMENT,
        _ => place,
    }
}

/// How many places an argument has.
const ARGUMENT: u16 = 85;

/// The places that pairs have, ascending.
fn paired(asked: &Asked) -> Vec<u16> {
    asked.pairs.iter().flat_map(|(p, q)| [*p, *q]).collect::<BTreeSet<u16>>().into_iter().collect()
}

/// The graph that follows a sheet through a step: its header, the rules of its execute nodes and the places
/// that it asks.
pub fn following(graph: &GraphNodes, old: &SheetTree, new: &SheetTree, step: &sheets::Step) -> GraphNodes {
    let (before, after) = (Asked::of(old), Asked::of(new));
    let pairs = (paired(&before), paired(&after));
    let mut graph = graph.clone();
    (graph.arity, graph.rules) = (after.arity, after.rules);
    for node in &mut graph.nodes {
        match (node, step) {
            (Node::Execute(rule), sheets::Step::Rules(part)) if usize::from(*rule) > part.start => {
                *rule = rule.saturating_sub(part.len() as u8).max(part.start as u8).max(1);
            }
            (Node::Switch { place, .. }, _) => *place = moved(*place, &before.places, &after.places, step),
            (Node::Pair { p, q, .. }, _) => {
                [*p, *q] = [*p, *q].map(|place| moved(place, &pairs.0, &pairs.1, step));
            }
            _ => {}
        }
    }
    graph
}

/// The same for bytes that are no whole graph: the header alone.
pub fn following_bytes(graph: &[u8], new: &SheetTree) -> Vec<u8> {
    let mut bytes = graph.to_vec();
    if let [0x12, arity, rules, ..] = &mut bytes[..] {
        (*arity, *rules) = (new.arity, new.rules.len() as u8);
    }
    bytes
}
