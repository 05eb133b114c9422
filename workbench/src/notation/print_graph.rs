//! Graphs as text: nodes, cases and edges in words.

use super::names::{Names, Used};
use super::parse_names::declares;
use super::places;
use super::print::numbers;
use super::tree::{Case, Graph, Kind};

/// So many of something, in words.
pub fn count(number: usize, one: &str) -> String {
    match number {
        1 => format!("1 {one}"),
        _ => format!("{number} {one}s"),
    }
}

impl Case {
    /// The case as text, by these names: a run of ids, a compound with its arity, or numbers.
    pub fn print(&self, names: &Names) -> String {
        match self {
            Case::Symbols(low, high) if low == high => id_of_case(*low, names),
            Case::Symbols(low, high) => format!("{}..{}", id_of_case(*low, names), id_of_case(*high, names)),
            Case::Compound(id, arity) => format!("{}/{arity}", id_of_case(*id, names)),
            Case::Numbers(gauge, low, high) => numbers(*gauge, *low, *high, names),
        }
    }
}

/// An id of a case, by its name unless a line that begins with that word is something else.
fn id_of_case(id: u16, names: &Names) -> String {
    match names.show(id) {
        word if word == "neither" || declares(&word) => format!("#{id}"),
        name => name,
    }
}

impl Kind {
    /// What the node is or asks.
    pub fn words(&self) -> String {
        match self {
            Kind::Fail => "fail".into(),
            Kind::Suspend => "suspend".into(),
            Kind::Execute(rule) => format!("execute {rule}"),
            Kind::Switch { place, .. } => places::words(*place),
            Kind::Pair { p, q, .. } => places::pair_words(*p, *q),
        }
    }

    /// The node's edges in their order, each with its words and where it leads.
    pub fn edges(&self, names: &Names) -> Vec<(String, u16)> {
        match self {
            Kind::Fail | Kind::Suspend | Kind::Execute(_) => Vec::new(),
            Kind::Switch { neither, unknown, cases, .. } => {
                let mut edges: Vec<_> = cases.iter().map(|(case, node)| (case.print(names), *node)).collect();
                edges.extend([("neither".into(), *neither), ("unknown".into(), *unknown)]);
                edges
            }
            Kind::Pair { no, other, .. } => vec![("no".into(), *no), ("other".into(), *other)],
        }
    }

    /// Where the node's edges lead, in their order.
    pub fn targets(&self) -> Vec<u16> {
        match self {
            Kind::Fail | Kind::Suspend | Kind::Execute(_) => Vec::new(),
            Kind::Switch { neither, unknown, cases, .. } => {
                cases.iter().map(|(_, node)| *node).chain([*neither, *unknown]).collect()
            }
            Kind::Pair { no, other, .. } => vec![*no, *other],
        }
    }
}

impl Graph {
    /// The ids and gauges that stand in its cases, gauge 0 apart, which is not named there.
    fn used(&self) -> Used {
        let mut used = Used::default();
        for node in &self.nodes {
            let Kind::Switch { cases, .. } = &node.kind else { continue };
            for (case, _) in cases {
                match case {
                    Case::Symbols(low, high) => used.ids.extend([low, high]),
                    Case::Compound(id, _) => used.ids.push(*id),
                    Case::Numbers(0, ..) => {}
                    Case::Numbers(gauge, ..) => used.gauges.push(u16::from(*gauge)),
                }
            }
        }
        used
    }

    /// The graph as text, by these names, of which those that are used are declared. What is said of an
    /// execute's rule follows as a comment.
    pub fn print(&self, names: &Names, rule: impl Fn(u8) -> Option<String>) -> String {
        let (rules, nodes) = (count(usize::from(self.rules), "rule"), count(self.nodes.len(), "node"));
        let mut text = format!("graph {}, {rules}, {nodes}\n{}", self.arity, names.declarations(self.used()));
        let digits = self.nodes.len().saturating_sub(1).to_string().len();
        for (number, node) in self.nodes.iter().enumerate() {
            text += &format!("{number:>digits$}: {}", node.kind.words());
            if let Kind::Execute(number) = node.kind {
                text += &rule(number).map(|rule| format!("  -- {rule}")).unwrap_or_default();
            }
            text.push('\n');
            let edges = node.kind.edges(names);
            let width = edges.iter().map(|(words, _)| words.chars().count()).max().unwrap_or(0);
            for (words, to) in edges {
                text += &format!("{:digits$}  {words:width$} -> {to}\n", "");
            }
        }
        text
    }
}
