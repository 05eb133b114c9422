//! One fault at a time in graphs that are accepted: the graphs, and what a check and writing again say of a change.

use crate::both::{check_graph, lent, rewrite};
use crate::generate::graphs::foreign;
use crate::generate::random::Random;
use crate::generate::sheets::sheet;
use crate::reference::build::nodes;
use crate::reference::nodes::{graph_bytes, Case, Node};
use crate::reference::sheet::Sheet;
use crate::results::{GraphSize, Refusal, Written};
use crate::vectors;
use std::rc::Rc;

/// A graph that is accepted, with its sheet.
pub struct Made {
    pub bytes: Vec<u8>,
    pub sheet: Rc<Sheet>,
    pub nodes: Vec<Node>,
}

/// Graphs to put faults in, built and foreign, for the sheets of the vectors and random ones.
pub fn graphs() -> Vec<Made> {
    let mut random = Random::new(0x6661_756c);
    let mut sheets: Vec<Vec<u8>> = vectors::all().into_iter().map(|vector| vector.sheet).collect();
    sheets.extend((0..80).map(|_| sheet(&mut random).bytes()));
    let mut graphs = Vec::new();
    for bytes in sheets {
        let Ok(sheet) = Sheet::read(&bytes).map(Rc::new) else { continue };
        let both = [nodes(&sheet).unwrap_or_default(), foreign(&mut random, &sheet.asked())];
        for nodes in both.into_iter().filter(|nodes| (1..=40).contains(&nodes.len())) {
            graphs.push(Made { bytes: bytes.clone(), sheet: sheet.clone(), nodes });
        }
    }
    graphs
}

/// How often each refusal was met, 0 being none.
#[derive(Default)]
pub struct Met([usize; 28]);

impl Met {
    /// A graph is checked and written again, and this is said.
    pub fn says(&mut self, sheet: &[u8], graph: &[u8], expected: Result<u16, Refusal>) {
        assert_eq!(check_graph(sheet, graph), expected.map(|nodes| GraphSize { nodes }));
        let (result, buffer) = rewrite(sheet, graph, graph.len());
        assert_eq!(result, expected.map(|_| Written { bytes: graph.len() as u32 }));
        assert!(buffer == if expected.is_ok() { graph.to_vec() } else { lent(graph.len()) });
        self.0[usize::from(expected.err().unwrap_or(0))] += 1;
        if let Some(short) = graph.len().checked_sub(1) {
            let (result, buffer) = rewrite(sheet, graph, short);
            assert_eq!(result.err(), Some(expected.err().unwrap_or(19)));
            assert!(buffer == lent(short), "a byte changed on a refusal");
            self.0[usize::from(expected.err().unwrap_or(19))] += 1;
        }
    }

    /// Changes every node of a graph on its own, in each of the ways that there are for it.
    pub fn every_node(
        &mut self,
        made: &Made,
        ways: impl Fn(&Made, &Node) -> Vec<Node>,
        expected: Result<(), Refusal>,
    ) {
        for (at, node) in made.nodes.iter().enumerate() {
            for changed in ways(made, node) {
                let mut nodes = made.nodes.clone();
                nodes[at] = changed;
                let graph = graph_bytes(made.sheet.arity, made.sheet.rules.len() as u8, &nodes);
                self.says(&made.bytes, &graph, expected.map(|()| nodes.len() as u16));
            }
        }
    }

    pub fn at_least(&self, count: usize, refusals: &[usize]) {
        println!("by refusal {:?}", self.0);
        for refusal in refusals {
            assert!(self.0[*refusal] >= count, "{refusal}: {} calls", self.0[*refusal]);
        }
    }
}

/// Where a node leads.
pub fn leads(node: &mut Node) -> Vec<&mut u16> {
    match node {
        Node::Switch { neither, unknown, cases, .. } => {
            let cases = cases.iter_mut().map(|case| match case {
                Case::Symbols { node, .. } | Case::Compound { node, .. } | Case::Numbers { node, .. } => node,
            });
            [neither, unknown].into_iter().chain(cases).collect()
        }
        Node::Pair { no, other, .. } => vec![no, other],
        _ => Vec::new(),
    }
}

/// The node with each of the places to which it leads set to this one.
pub fn led_to(node: &Node, to: u16) -> Vec<Node> {
    let count = leads(&mut node.clone()).len();
    let changed = |at: usize| {
        let mut node = node.clone();
        *leads(&mut node)[at] = to;
        node
    };
    (0..count).map(changed).collect()
}

/// The switch with its cases changed in each of these ways; none for other nodes.
pub fn with_cases(node: &Node, ways: impl Fn(&[Case]) -> Vec<Vec<Case>>) -> Vec<Node> {
    let Node::Switch { place, neither, unknown, cases } = node else { return Vec::new() };
    let switch = |cases| Node::Switch { place: *place, neither: *neither, unknown: *unknown, cases };
    ways(cases).into_iter().map(switch).collect()
}

/// A sort of cases with two ends.
#[derive(Clone, Copy)]
pub enum Ended {
    Symbols,
    Numbers,
}

impl Ended {
    /// The gauge of a case of this sort, 0 for symbols, and its ends.
    fn ends(self, case: &Case) -> Option<(u8, (u16, u16))> {
        match (self, case) {
            (Ended::Symbols, Case::Symbols { low, high, .. }) => Some((0, (*low, *high))),
            (Ended::Numbers, Case::Numbers { gauge, low, high, .. }) => Some((*gauge, (*low, *high))),
            _ => None,
        }
    }

    /// The cases with the ends of each of this sort changed on its own, from its ends and those of the case after it, if
    /// that is on the same gauge, in each of these ways.
    pub fn changed(
        self,
        cases: &[Case],
        ways: impl Fn((u16, u16), Option<(u16, u16)>) -> Vec<(u16, u16)>,
    ) -> Vec<Vec<Case>> {
        let mut all = Vec::new();
        for (at, case) in cases.iter().enumerate() {
            let Some((gauge, ends)) = self.ends(case) else { continue };
            let after = cases.get(at + 1).and_then(|case| self.ends(case)).filter(|(on, _)| *on == gauge);
            for (low, high) in ways(ends, after.map(|(_, ends)| ends)) {
                let mut cases = cases.to_vec();
                cases[at] = match self {
                    Ended::Symbols => Case::Symbols { low, high, node: case.node() },
                    Ended::Numbers => Case::Numbers { gauge, low, high, node: case.node() },
                };
                all.push(cases);
            }
        }
        all
    }
}
