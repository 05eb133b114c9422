//! The edges of a node as a picture shows them: those to one node are one, whose label sums them up; the one for
//! unknown stands by itself.

use crate::notation::{Kind, Names};
use crate::retrace::Step;
use crate::takers::{takers, Taker};
use std::collections::BTreeMap;

/// At most so many cases stand beside an edge; the others are counted.
const SHOWN: usize = 6;

/// At most so many cases for spans stand beside an edge; more are counted only.
const SPANS_SHOWN: usize = 2;

/// The sort of an edge, by which it is drawn.
#[derive(Clone, Copy, PartialEq, Eq, PartialOrd, Ord)]
pub enum Sort {
    Case,
    Neither,
    Unknown,
}

/// An edge as it is drawn.
pub struct Edge {
    pub to: u16,
    pub sort: Sort,
    pub label: String,
    /// Whether a marked walk takes it.
    pub marked: bool,
}

/// What one edge stands for: the cases that numbers and other terms take, those that only spans take, how many nothing
/// takes, and whether it is the one for neither too.
#[derive(Default)]
struct Joined {
    others: Vec<String>,
    spans: Vec<String>,
    unused: usize,
    neither: bool,
}

impl Joined {
    fn label(mut self) -> String {
        let more = self.others.len().saturating_sub(SHOWN);
        if more > 1 {
            self.others.truncate(SHOWN);
            self.others.push(format!("… {more} more"));
        }
        if self.neither {
            self.others.push("neither".into());
        }
        match self.spans.len() {
            count if count > SPANS_SHOWN => self.others.push(format!("{count} spans")),
            _ => self.others.extend(self.spans.iter().map(|span| format!("span {span}"))),
        }
        if self.unused > 0 {
            self.others.push(format!("{} unused", self.unused));
        }
        self.others.join(" \n ")
    }
}

/// The numbers of the steps, from 1, that take this edge of a node.
fn steps_of(steps: &[Step], number: u16, edge: usize) -> Vec<String> {
    let taken = steps.iter().enumerate().filter(|(_, step)| step.node == number && step.edge == edge);
    taken.map(|(at, _)| (at + 1).to_string()).collect()
}

/// Joins the edge for neither with that of the cases that lead to the same node, as the runs of numbers that no rule
/// accepts do.
fn join_neither(grouped: &mut BTreeMap<(u16, Sort), Joined>) {
    let Some(&(to, sort)) = grouped.keys().find(|(_, sort)| *sort == Sort::Neither) else { return };
    if let Some(cases) = grouped.get_mut(&(to, Sort::Case)) {
        cases.neither = true;
        grouped.remove(&(to, sort));
    }
}

/// The edges of a node as they are drawn. Those that a marked walk takes stand by themselves.
pub fn edges(number: u16, kind: &Kind, names: &Names, walk: &[Step]) -> Vec<Edge> {
    let edges = kind.edges(names);
    let takers = match kind {
        Kind::Switch { cases, .. } => takers(cases),
        _ => vec![Taker::Terms; edges.len()],
    };
    let mut drawn = Vec::new();
    let mut grouped: BTreeMap<(u16, Sort), Joined> = BTreeMap::new();
    for (at, (words, to)) in edges.into_iter().enumerate() {
        let sort = match at.checked_sub(takers.len()) {
            None => Sort::Case,
            Some(0) => Sort::Neither,
            Some(_) => Sort::Unknown,
        };
        let steps = steps_of(walk, number, at);
        if !steps.is_empty() {
            let label = format!("{}: {words}", steps.join(", "));
            drawn.push(Edge { to, sort, label, marked: true });
            continue;
        }
        let joined = grouped.entry((to, sort)).or_default();
        match takers.get(at) {
            Some(Taker::Spans) => joined.spans.push(words),
            Some(Taker::Nothing) => joined.unused += 1,
            _ => joined.others.push(words),
        }
    }
    join_neither(&mut grouped);
    let joined =
        |((to, sort), joined): ((u16, Sort), Joined)| Edge { to, sort, label: joined.label(), marked: false };
    drawn.extend(grouped.into_iter().map(joined));
    drawn
}

#[cfg(test)]
mod tests {
    use super::*;
    use crate::notation::Case;
    use crate::takers::has_spans;

    /// The cases for all pairs of these runs of gauge 0, each to the node of this function.
    fn switch(runs: &[(u16, u16)], to: impl Fn(usize, usize) -> u16) -> Kind {
        switch_on(0, runs, to)
    }

    /// The same of another gauge.
    fn switch_on(gauge: u8, runs: &[(u16, u16)], to: impl Fn(usize, usize) -> u16) -> Kind {
        let mut cases = vec![(Case::Symbols(7, 7), 1)];
        for (first, (low, _)) in runs.iter().enumerate() {
            for (last, (_, high)) in runs.iter().enumerate().skip(first) {
                cases.push((Case::Numbers(gauge, *low, *high), to(first, last)));
            }
        }
        Kind::Switch { place: 0, neither: 2, unknown: 1, cases }
    }

    fn labels(kind: &Kind) -> Vec<(u16, String)> {
        let edges = edges(0, kind, &Names::default(), &[]);
        edges.into_iter().map(|edge| (edge.to, edge.label)).collect()
    }

    const RUNS: [(u16, u16); 4] = [(0, 8), (9, 20), (21, 30), (31, 65535)];

    #[test]
    fn cases_to_one_node_are_joined() {
        let kind = switch(&RUNS, |first, last| if first == last { 1 } else { 3 });
        let said = |to, label: &str| (to, label.to_string());
        let numbers = "#7 \n 0..8 \n 9..20 \n 21..30 \n 31..65535";
        assert_eq!(
            labels(&kind),
            [said(1, numbers), said(1, "unknown"), said(2, "neither"), said(3, "6 spans")]
        );
        let kind = switch(&RUNS[..2], |_, _| 3);
        assert_eq!(labels(&kind)[3], said(3, "0..8 \n 9..20 \n span 0..20"));
        // Those to the node for neither are one edge with it.
        let kind = switch(&RUNS[..2], |_, _| 2);
        let joined = "0..8 \n 9..20 \n neither \n span 0..20";
        assert_eq!(labels(&kind), [said(1, "#7"), said(1, "unknown"), said(2, joined)]);
        assert!(!has_spans(&switch(&RUNS[..1], |_, _| 3)));
    }

    /// Of another gauge there are no spans: the cases for several runs are taken by nothing, and only counted.
    #[test]
    fn runs_of_a_named_gauge_stand_with_its_name() {
        let mut names = Names::default();
        names.gauges.add("roller".into(), 3, Default::default());
        let kind = switch_on(3, &RUNS[..3], |first, last| if first == last { 1 } else { 3 });
        let said = |to, label: &str| (to, label.to_string());
        let drawn: Vec<_> =
            edges(0, &kind, &names, &[]).into_iter().map(|edge| (edge.to, edge.label)).collect();
        let numbers = "#7 \n 0..8@roller \n 9..20@roller \n 21..30@roller";
        let others = [said(1, "unknown"), said(2, "neither"), said(3, "3 unused")];
        assert_eq!(drawn, [&[said(1, numbers)][..], &others].concat());
        assert_eq!(labels(&kind)[0], said(1, &numbers.replace("roller", "3")));
        assert!(!has_spans(&kind));
    }

    #[test]
    fn a_run_of_ids_is_its_ends() {
        let cases = [(3, 3, 1), (4, 9, 3), (10, 10, 1), (12, 65535, 3)];
        let cases = cases.map(|(low, high, to)| (Case::Symbols(low, high), to)).to_vec();
        let kind = Kind::Switch { place: 0, neither: 2, unknown: 2, cases };
        let said = |to, label: &str| (to, label.to_string());
        let ids =
            [said(1, "#3 \n #10"), said(2, "neither"), said(2, "unknown"), said(3, "#4..#9 \n #12..#65535")];
        assert_eq!(labels(&kind), ids);
        assert!(!has_spans(&kind));
    }

    #[test]
    fn many_runs_are_counted() {
        let runs: Vec<(u16, u16)> = (0..129).map(|at| (at * 10, at * 10 + 9)).collect();
        let kind = switch(&runs, |_, _| 3);
        assert!(has_spans(&kind));
        let shown = "0..9 \n 10..19 \n 20..29 \n 30..39 \n 40..49 \n 50..59 \n … 123 more \n 8256 spans";
        assert_eq!(labels(&kind)[3], (3, shown.to_string()));
    }

    #[test]
    fn a_wider_case_that_numbers_follow_is_no_spans() {
        let cases = vec![(Case::Numbers(0, 1, 5), 0), (Case::Numbers(0, 1, 9), 0)];
        let kind = Kind::Switch { place: 0, neither: 2, unknown: 1, cases };
        assert_eq!(labels(&kind)[0], (0, "1..5 \n 1..9".to_string()));
        assert!(!has_spans(&kind));
    }
}
