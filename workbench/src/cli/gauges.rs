//! What a walk has to say about gauges: which tests a number contradicts as it is on another gauge.

use super::answers::Bench;
use crate::notation::{Case, Kind, Piece, Term};
use crate::retrace::{Step, Way};
use crate::sheet_tests::{Test, Want};
use crate::truth::{equal, find, without_gauges, Found, Truth};

/// A piece whose gauges are explained.
pub struct Gauges<'a> {
    pub bench: &'a Bench,
    pub piece: &'a Piece,
}

impl Gauges<'_> {
    /// What is said beside a test that is contradicted as a number is on another gauge.
    pub fn beside(&self, test: Test, want: Option<Want>) -> &'static str {
        match (test, want) {
            (Test::Place(place), Some(Want::Numbers(gauge, ..))) => match self.on(place) {
                Some((on, _)) if on != gauge => ": on another gauge",
                _ => "",
            },
            (Test::Pair(p, q), _) if self.differ(p, q) => ": on two gauges",
            _ => "",
        }
    }

    /// The gauge of the number or span at a place, and what stands there.
    fn on(&self, place: u16) -> Option<(u8, &Term)> {
        let Found::Term(term) = find(self.piece, place) else { return None };
        term.what.numbers().map(|(gauge, ..)| (gauge, term))
    }

    /// Whether two places differ, but would not if all numbers were on one gauge.
    fn differ(&self, p: u16, q: u16) -> bool {
        equal(self.piece, p, q) == Truth::Contradicted
            && equal(&without_gauges(self.piece), p, q) != Truth::Contradicted
    }

    /// What stands at a place, if the cases of a node are of other gauges.
    fn caseless(&self, node: u16, place: u16) -> Option<&Term> {
        let (gauge, term) = self.on(place)?;
        let Kind::Switch { cases, .. } = &self.bench.graph.graph.nodes[usize::from(node)].kind else {
            return None;
        };
        let gauges = cases.iter().filter_map(|(case, _)| match case {
            Case::Numbers(gauge, ..) => Some(*gauge),
            Case::Symbols(..) | Case::Compound(..) => None,
        });
        let gauges: Vec<u8> = gauges.collect();
        (!gauges.is_empty() && !gauges.contains(&gauge)).then_some(term)
    }

    /// A line for each node at which two places differ by their gauges alone, or whose cases are of other gauges.
    pub fn met(&self, way: &Way) -> String {
        let line = |step: &Step| {
            let said = match step.asks {
                Test::Pair(p, q) if self.differ(p, q) => {
                    "the numbers are on two gauges, so they differ".into()
                }
                Test::Pair(..) => return None,
                Test::Place(place) => {
                    let term = self.caseless(step.node, place)?.print(&self.bench.sheet.names);
                    format!("its cases are of other gauges, so none takes {term}")
                }
            };
            Some(format!("node {}: {said}\n", step.node))
        };
        way.steps.iter().filter_map(line).collect()
    }
}
