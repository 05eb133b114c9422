//! A graph as a picture, in the language of Graphviz.

use crate::dot_edges::{edges, Edge, Sort};
use crate::notation::{Graph, Kind, Names};
use crate::retrace::Step;
use crate::takers::{has_spans, has_unused};
use std::fmt::Write;

/// What a picture shows.
pub struct Picture<'a> {
    pub graph: &'a Graph,
    pub names: &'a Names,
    /// The rules as they are written, the first one first.
    pub rules: &'a [String],
    /// What stands above it.
    pub title: String,
    /// A walk to be marked: its edges, and the node at which it ended.
    pub walk: Option<(&'a [Step], u16)>,
}

/// How a node looks: its fill and its border.
struct Look {
    fill: &'static str,
    line: &'static str,
}

const SWITCH: Look = Look { fill: "#eef3fb", line: "#4a6fa5" };
const PAIR: Look = Look { fill: "#f1ecf9", line: "#7454a8" };
const EXECUTE: Look = Look { fill: "#d9f0df", line: "#2f7d4f" };
const SUSPEND: Look = Look { fill: "#fdeec9", line: "#b07a12" };
const FAIL: Look = Look { fill: "#f9dcdb", line: "#b23a3a" };

/// The colour of a walk that is marked.
const MARK: &str = "#d9480f";

/// A graph with more nodes than this goes from left to right, so that it grows down the page.
const SMALL: usize = 40;

/// A graph with more nodes than this is laid out in a hurry, with straight edges.
const LARGE: usize = 150;

fn look(kind: &Kind) -> &'static Look {
    match kind {
        Kind::Switch { .. } => &SWITCH,
        Kind::Pair { .. } => &PAIR,
        Kind::Execute(_) => &EXECUTE,
        Kind::Suspend => &SUSPEND,
        Kind::Fail => &FAIL,
    }
}

/// Text inside quotes.
fn quoted(text: &str) -> String {
    format!("\"{}\"", text.replace('\\', "\\\\").replace('"', "\\\"").replace('\n', "\\n"))
}

/// Text inside a label of the kind that looks like HTML.
fn escaped(text: &str) -> String {
    text.replace('&', "&amp;").replace('<', "&lt;").replace('>', "&gt;").replace('"', "&quot;")
}

/// Small text in a colour, inside such a label.
fn small(text: &str, colour: &str) -> String {
    format!("<FONT POINT-SIZE=\"9.5\" COLOR=\"{colour}\">{text}</FONT>")
}

/// Text of at most so many characters.
fn cut(text: &str, most: usize) -> String {
    match text.chars().count() > most {
        true => text.chars().take(most - 1).chain(['…']).collect(),
        false => text.into(),
    }
}

impl Picture<'_> {
    /// The picture as text for `dot`.
    pub fn dot(&self) -> String {
        let mut to = String::new();
        self.write(&mut to).expect("a string takes all");
        to
    }

    /// How many edges are drawn.
    pub fn edge_count(&self) -> usize {
        self.graph.nodes.iter().enumerate().map(|(at, node)| self.drawn(at as u16, &node.kind).len()).sum()
    }

    fn write(&self, to: &mut String) -> std::fmt::Result {
        self.write_head(to)?;
        if !self.title.is_empty() {
            writeln!(to, "  subgraph cluster_title {{")?;
            writeln!(
                to,
                "  graph [penwidth=0, labelloc=t, labeljust=c, label=<<B>{}</B>>];",
                escaped(&self.title)
            )?;
        }
        let ways = self.ways();
        for (number, node) in self.graph.nodes.iter().enumerate() {
            self.node(to, number, &node.kind, ways[number])?;
        }
        if !self.title.is_empty() {
            writeln!(to, "  }}")?;
        }
        writeln!(to)?;
        for (number, node) in self.graph.nodes.iter().enumerate() {
            for edge in self.drawn(number as u16, &node.kind) {
                self.edge(to, number as u16, &edge)?;
            }
        }
        writeln!(to, "}}")
    }

    /// What holds for all nodes and edges.
    fn write_head(&self, to: &mut String) -> std::fmt::Result {
        let font = "fontname=\"Helvetica,Arial,sans-serif\"";
        writeln!(to, "digraph decisions {{")?;
        let nodes = self.graph.nodes.len();
        let layout = match nodes > SMALL {
            true => "rankdir=LR, nodesep=0.14, ranksep=1.1",
            false => "rankdir=TB, nodesep=0.35, ranksep=0.55",
        };
        writeln!(to, "  graph [{layout}, pad=0.25, bgcolor=white, {font},")?;
        if nodes > LARGE {
            writeln!(to, "    splines=line, nslimit=1, nslimit1=1, mclimit=0.1,")?;
        }
        writeln!(
            to,
            "    fontsize=12, fontcolor=\"#333333\", labelloc=b, labeljust=c, label=<{}>];",
            self.legend()
        )?;
        writeln!(
            to,
            "  node [shape=box, style=\"filled,rounded\", penwidth=1.2, margin=\"0.16,0.08\", {font},"
        )?;
        writeln!(to, "    fontsize=12, fontcolor=\"#222222\"];")?;
        writeln!(to, "  edge [color=\"#555555\", arrowsize=0.7, penwidth=1.1, {font},")?;
        writeln!(to, "    fontsize=10.5, fontcolor=\"#333333\"];")?;
        writeln!(to)
    }

    /// How many nodes have an edge to each node.
    fn ways(&self) -> Vec<usize> {
        let mut ways = vec![0; self.graph.nodes.len()];
        for node in &self.graph.nodes {
            let mut targets = node.kind.targets();
            targets.sort_unstable();
            targets.dedup();
            for to in targets {
                if let Some(count) = ways.get_mut(usize::from(to)) {
                    *count += 1;
                }
            }
        }
        ways
    }

    /// The words and colours of the picture, in a table below it.
    fn legend(&self) -> String {
        let has = |is: fn(&Kind) -> bool| self.graph.nodes.iter().any(|node| is(&node.kind));
        let mut cells = String::new();
        let mut coloured = |shown: bool, Look { fill, line }: &Look, text: &str| {
            if shown {
                let look = format!("BGCOLOR=\"{fill}\" COLOR=\"{line}\" BORDER=\"1\" STYLE=\"ROUNDED\"");
                cells += &format!("<TD {look}>{}</TD>", small(text, "#333333"));
            }
        };
        coloured(has(|kind| matches!(kind, Kind::Switch { .. })), &SWITCH, "asks what stands there");
        coloured(has(|kind| matches!(kind, Kind::Pair { .. })), &PAIR, "asks whether two differ");
        coloured(has(|kind| matches!(kind, Kind::Execute(_))), &EXECUTE, "one rule is left");
        coloured(has(|kind| matches!(kind, Kind::Suspend)), &SUSPEND, "waits for readings");
        coloured(has(|kind| matches!(kind, Kind::Fail)), &FAIL, "no rule is left");
        let mut plain = |text: &str, colour: &str| cells += &format!("<TD>{}</TD>", small(text, colour));
        plain("double border: reached from several nodes", "#333333");
        plain("dashed: unknown", "#333333");
        if has(has_spans) {
            plain("span: a number between two", "#333333");
        }
        if has(has_unused) {
            plain("unused: cases that no reading takes", "#333333");
        }
        if self.walk.is_some() {
            plain("thick: the way that was walked", MARK);
        }
        format!("<TABLE BORDER=\"0\" CELLBORDER=\"0\" CELLSPACING=\"6\" CELLPADDING=\"4\"><TR>{cells}</TR></TABLE>")
    }

    /// Whether a walk that is marked comes to a node.
    fn on_walk(&self, number: u16) -> bool {
        self.walk.is_some_and(|(steps, end)| end == number || steps.iter().any(|step| step.node == number))
    }

    /// A node: what it is or asks, its number, and a leaf's rule as it is written.
    fn node(&self, to: &mut String, number: usize, kind: &Kind, ways: usize) -> std::fmt::Result {
        let Look { fill, line } = look(kind);
        let words = escaped(&kind.words());
        let label = match kind {
            Kind::Execute(rule) => {
                let written = self.rules.get(usize::from(*rule).wrapping_sub(1));
                let written =
                    written.map(|rule| format!("<BR/>{}", small(&escaped(&cut(rule, 48)), "#666666")));
                format!("<B>{words}</B>{}", written.unwrap_or_default())
            }
            Kind::Fail | Kind::Suspend => format!("<B>{words}</B>"),
            Kind::Switch { .. } | Kind::Pair { .. } => {
                format!("{words}<BR/>{}", small(&format!("node {number}"), "#777777"))
            }
        };
        write!(to, "  n{number} [label=<{label}>, fillcolor=\"{fill}\", color=\"{line}\"")?;
        write!(to, ", tooltip={}", quoted(&format!("node {number}: {}", kind.words())))?;
        if ways > 1 {
            write!(to, ", peripheries=2")?;
        }
        if self.on_walk(number as u16) {
            write!(to, ", color=\"{MARK}\", penwidth=2.4")?;
        }
        writeln!(to, "];")
    }

    /// The edges of a node as they are drawn.
    fn drawn(&self, number: u16, kind: &Kind) -> Vec<Edge> {
        edges(number, kind, self.names, self.walk.map_or(&[], |(steps, _)| steps))
    }

    /// One edge.
    fn edge(&self, to: &mut String, from: u16, edge: &Edge) -> std::fmt::Result {
        write!(to, "  n{from} -> n{} [label={}", edge.to, quoted(&format!(" {} ", edge.label)))?;
        if edge.sort == Sort::Unknown {
            write!(to, ", style=dashed")?;
        }
        match (edge.marked, self.walk.is_some(), edge.sort) {
            (true, ..) => write!(to, ", color=\"{MARK}\", fontcolor=\"{MARK}\", penwidth=2.4")?,
            (_, true, _) => write!(to, ", color=\"#bbbbbb\", fontcolor=\"#999999\"")?,
            (_, _, Sort::Case) => {}
            _ => write!(to, ", color=\"#8a8a8a\"")?,
        }
        writeln!(to, "];")
    }
}
