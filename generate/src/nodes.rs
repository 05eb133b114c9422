//! Graph nodes, and the records that spell them.

use crate::records::{wide, Reader};

/// A case of a switch: what it takes, and its node.
#[derive(Clone, Copy, Debug, PartialEq, Eq)]
pub enum Case {
    Symbols { low: u16, high: u16, node: u16 },
    Compound { id: u16, arity: u8, node: u16 },
    Numbers { gauge: u8, low: u16, high: u16, node: u16 },
}

/// A node.
#[derive(Clone, Debug, PartialEq, Eq)]
pub enum Node {
    Fail,
    Suspend,
    Execute(u8),
    Switch { place: u16, neither: u16, unknown: u16, cases: Vec<Case> },
    Pair { p: u16, q: u16, no: u16, other: u16 },
}

impl Case {
    pub fn node(&self) -> u16 {
        let (Case::Symbols { node, .. } | Case::Compound { node, .. } | Case::Numbers { node, .. }) = self;
        *node
    }

    /// The case that comes next, if it is whole and of kinds 44 to 46.
    #[inline]
    fn read(from: &mut Reader) -> Option<Case> {
        let [kind] = from.take()?;
        Some(match kind {
            0x44 => {
                let [a, b, c, d, e, f] = from.take()?;
                Case::Symbols { low: wide(a, b), high: wide(c, d), node: wide(e, f) }
            }
            0x45 => {
                let [a, b, arity, c, d] = from.take()?;
                Case::Compound { id: wide(a, b), arity, node: wide(c, d) }
            }
            0x46 => {
                let [gauge, a, b, c, d, e, f] = from.take()?;
                Case::Numbers { gauge, low: wide(a, b), high: wide(c, d), node: wide(e, f) }
            }
            _ => return None,
        })
    }

    #[inline]
    fn write(&self, to: &mut Vec<u8>) {
        match *self {
            Case::Symbols { low, high, node } => {
                let ([a, b], [c, d], [e, f]) = (two(low), two(high), two(node));
                to.extend([0x44, a, b, c, d, e, f]);
            }
            Case::Compound { id, arity, node } => {
                let ([a, b], [c, d]) = (two(id), two(node));
                to.extend([0x45, a, b, arity, c, d]);
            }
            Case::Numbers { gauge, low, high, node } => {
                let ([a, b], [c, d], [e, f]) = (two(low), two(high), two(node));
                to.extend([0x46, gauge, a, b, c, d, e, f]);
            }
        }
    }
}

/// No case has fewer bytes, or more.
const LEAST_CASE: usize = 6;
const MOST_CASE: usize = 8;

/// A wide field's two bytes.
fn two(field: u16) -> [u8; 2] {
    field.to_be_bytes()
}

impl Node {
    /// The node that comes next. Question 22: are the record and its cases whole, the node of kind
    /// 40 to 43 or 47, its cases of kinds 44 to 46, a switch with 1 case or more?
    #[inline]
    pub fn read(from: &mut Reader) -> Option<Node> {
        let [kind] = from.take()?;
        Some(match kind {
            0x40 => Node::Fail,
            0x41 => Node::Suspend,
            0x42 => {
                let [rule] = from.take()?;
                Node::Execute(rule)
            }
            0x43 => {
                let [a, b, high, low, c, d, e, f] = from.take()?;
                let count = wide(high, low);
                let mut cases = Vec::with_capacity(usize::from(count).min(from.left() / LEAST_CASE));
                for _ in 0..count {
                    cases.push(Case::read(from)?);
                }
                if cases.is_empty() {
                    return None;
                }
                Node::Switch { place: wide(a, b), neither: wide(c, d), unknown: wide(e, f), cases }
            }
            0x47 => {
                let [a, b, c, d, e, f, g, h] = from.take()?;
                Node::Pair { p: wide(a, b), q: wide(c, d), no: wide(e, f), other: wide(g, h) }
            }
            _ => return None,
        })
    }

    #[inline]
    pub fn write(&self, to: &mut Vec<u8>) {
        match self {
            Node::Fail => to.push(0x40),
            Node::Suspend => to.push(0x41),
            Node::Execute(rule) => to.extend([0x42, *rule]),
            Node::Switch { place, neither, unknown, cases } => {
                let ([a, b], [c, d], [e, f]) = (two(*place), two(*neither), two(*unknown));
                let [high, low] = two(cases.len() as u16);
                to.extend([0x43, a, b, high, low, c, d, e, f]);
                cases.iter().for_each(|case| case.write(to));
            }
            Node::Pair { p, q, no, other } => {
                let ([a, b], [c, d], [e, f], [g, h]) = (two(*p), two(*q), two(*no), two(*other));
                to.extend([0x47, a, b, c, d, e, f, g, h]);
            }
        }
    }
}

/// The bytes of a graph: its header, then its nodes.
pub fn graph_bytes(arity: u8, rules: u8, nodes: &[Node]) -> Vec<u8> {
    let cases = |node: &Node| if let Node::Switch { cases, .. } = node { cases.len() } else { 0 };
    let mut to = Vec::with_capacity(5 + nodes.iter().map(|node| 9 + MOST_CASE * cases(node)).sum::<usize>());
    let [a, b] = two(nodes.len() as u16);
    to.extend([0x12, arity, rules, a, b]);
    nodes.iter().for_each(|node| node.write(&mut to));
    to
}

/// A graph as its header and its nodes say it, whatever limits it breaks.
#[derive(Clone, Debug, PartialEq, Eq)]
pub struct GraphNodes {
    pub arity: u8,
    pub rules: u8,
    pub nodes: Vec<Node>,
}

impl GraphNodes {
    /// The graph that these bytes begin with, and the bytes after it. Written again it is the bytes that
    /// it was read from.
    pub fn read(bytes: &[u8]) -> Option<(GraphNodes, &[u8])> {
        let mut from = Reader::new(bytes);
        let [arity, rules, high, low] = from.body_of(0x12)?;
        let nodes = (0..wide(high, low)).map(|_| Node::read(&mut from)).collect::<Option<_>>()?;
        Some((GraphNodes { arity, rules, nodes }, from.rest()))
    }

    /// The graph's bytes.
    pub fn bytes(&self) -> Vec<u8> {
        graph_bytes(self.arity, self.rules, &self.nodes)
    }
}
