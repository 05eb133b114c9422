//! What a walk has to say about spans: why a case was taken, and why a place is waited for.

use super::answers::{listed, Bench};
use crate::notation::{Piece, What};
use crate::retrace::{Step, Way};
use crate::sheet_tests::{Test, Want};
use crate::truth::{find, Found};

/// A walk whose spans are explained.
pub struct Spans<'a> {
    pub bench: &'a Bench,
    pub piece: &'a Piece,
    pub way: &'a Way,
}

impl Spans<'_> {
    /// The place that a step asks for and the span that it finds there, if it finds one.
    fn found(&self, step: &Step) -> Option<(u16, String)> {
        let Test::Place(place) = step.asks else { return None };
        match find(self.piece, place) {
            Found::Term(term) if matches!(term.what, What::Between(..)) => {
                Some((place, term.print(&self.bench.sheet.names)))
            }
            _ => None,
        }
    }

    /// A line for each node at which several cases contain the span, of which one was taken.
    pub fn chosen(&self) -> String {
        let line = |step: &Step| {
            let (_, span) = self.found(step).filter(|_| step.contain > 1)?;
            let edges =
                self.bench.graph.graph.nodes[usize::from(step.node)].kind.edges(&self.bench.sheet.names);
            let (case, _) = edges.get(step.edge)?;
            let (node, count) = (step.node, step.contain);
            Some(format!(
                "node {node}: of the {count} cases that contain {span}, {case} has the highest low, then the lowest high\n"
            ))
        };
        self.way.steps.iter().filter_map(line).collect()
    }

    /// A line for each place that a suspended piece waits for as its span lies partly inside a rule's range.
    pub fn waited(&self) -> String {
        let mut lines: Vec<String> = Vec::new();
        for step in self.way.steps.iter().filter(|step| step.partly != 0) {
            let Some((place, span)) = self.found(step) else { continue };
            let rules = self.bench.tests.rules.iter().enumerate();
            let ranges: Vec<String> = rules
                .filter(|(at, _)| step.partly >> at & 1 == 1)
                .filter_map(|(at, rule)| match rule.at(place)? {
                    Want::Numbers(_, low, high) => Some(format!("{low}..{high} (rule {})", at + 1)),
                    Want::Symbols(..) | Want::Compound(..) => None,
                })
                .collect();
            let asked = step.asks.words();
            let line = format!("  {asked}: {span} is partly inside, partly outside {}\n", listed(&ranges));
            if !lines.contains(&line) {
                lines.push(line);
            }
        }
        lines.concat()
    }
}
