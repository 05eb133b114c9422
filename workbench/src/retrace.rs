//! A walk retraced from the bytes of a graph: what each node asks, what stands there, the edge taken.
//!
//! The answer is the library's. The way that is found here must come to it, or it isn't shown.

use crate::notation::{Case, Graph, Kind, Piece, What};
use crate::sheet_tests::{RuleTests, SheetTests, Test, Want};
use crate::truth::{equal, find, wanted, Found, Truth};
use std::cmp::Reverse;
use voltunnis::{Answer, Walk, Word};

/// The most edges that a walk may take.
const MOST_EDGES: usize = 64;

/// An edge taken.
#[derive(Clone, Debug)]
pub struct Step {
    /// The node that asks.
    pub node: u16,
    pub asks: Test,
    /// Which of the node's edges is taken, in their order.
    pub edge: usize,
    pub to: u16,
    /// How many cases contain what stands there: of numbers and spans the one with the highest low, then the
    /// lowest high is taken.
    pub contain: usize,
    /// The rules that are left after it, rule i being bit i - 1.
    pub left: u64,
    /// Those of them whose range has a part of the span there, but not all of it.
    pub partly: u64,
}

/// A test of the rule at whose node a walk ended.
#[derive(Clone, Debug)]
pub struct Made {
    pub test: Test,
    /// What is wanted, of a place test.
    pub want: Option<Want>,
    pub truth: Truth,
}

/// A walk retraced.
#[derive(Clone, Debug)]
pub struct Way {
    pub steps: Vec<Step>,
    /// The node at which it ended.
    pub node: u16,
    /// The tests that were made there, of an execute's rule.
    pub made: Vec<Made>,
    /// The answer, or the number of the question that got a no on the way.
    pub answer: Result<Answer, u8>,
}

/// What a step needs to know.
struct Walker<'a> {
    tests: &'a SheetTests,
    piece: &'a Piece,
}

/// Retraces the walk of a piece over an accepted graph.
pub fn retrace(tests: &SheetTests, graph: &Graph, piece: &Piece) -> Way {
    let walker = Walker { tests, piece };
    let mut way = Way { steps: Vec::new(), node: 0, made: Vec::new(), answer: Err(26) };
    let (mut left, mut unknown) = (tests.rules.iter().enumerate().fold(0, |set, (at, _)| set | 1 << at), 0);
    loop {
        let kind = &graph.nodes[usize::from(way.node)].kind;
        let asks = match kind {
            Kind::Switch { place, .. } => Test::Place(*place),
            Kind::Pair { p, q, .. } => Test::Pair(*p, *q),
            leaf => {
                way.answer = Ok(walker.leaf(leaf, unknown, &mut way));
                return way;
            }
        };
        if way.steps.len() == MOST_EDGES {
            return way;
        }
        let Some(Taken { edge, contain, known }) = walker.edge(kind) else {
            way.answer = Err(27);
            return way;
        };
        left &= !walker.rules(asks, Truth::Contradicted);
        let partly = if known { left & walker.rules(asks, Truth::NotKnown) } else { 0 };
        if !known || partly != 0 {
            unknown |= tests.bit(asks);
        }
        let to = kind.targets()[edge];
        way.steps.push(Step { node: way.node, asks, edge, to, contain, left, partly });
        way.node = to;
    }
}

/// The edge that a piece takes.
struct Taken {
    edge: usize,
    /// How many cases contain what stands there.
    contain: usize,
    /// Whether more is known there than an unknown says, or of a pair whether its places are equal.
    known: bool,
}

/// Whether a case contains a term.
fn contains(case: &Case, what: &What) -> bool {
    match (case, what) {
        (Case::Symbols(low, high), What::Symbol(id)) => low <= id && id <= high,
        (Case::Compound(id, arity), What::Compound(other, arguments)) => {
            id == other && usize::from(*arity) == arguments.len()
        }
        (Case::Numbers(gauge, low, high), what) => {
            what.numbers().is_some_and(|(on, a, b)| on == *gauge && *low <= a && b <= *high)
        }
        _ => false,
    }
}

/// How narrow a case is: of those that contain a number or span the one with the highest low, then the lowest high is
/// taken.
fn narrowness(case: &Case) -> (u16, Reverse<u16>) {
    match case {
        Case::Numbers(_, low, high) => (*low, Reverse(*high)),
        Case::Symbols(..) | Case::Compound(..) => (0, Reverse(0)),
    }
}

/// The edge that a term takes at a switch with these cases.
fn taken(cases: &[(Case, u16)], what: &What) -> Taken {
    let containing = || cases.iter().enumerate().filter(|(_, (case, _))| contains(case, what));
    let narrowest = containing().max_by_key(|(_, (case, _))| narrowness(case));
    let edge = narrowest.map_or(cases.len(), |(at, _)| at);
    Taken { edge, contain: containing().count(), known: true }
}

impl Walker<'_> {
    /// The edge that the piece takes; none where the piece lacks a place that is tested.
    fn edge(&self, kind: &Kind) -> Option<Taken> {
        match kind {
            Kind::Switch { place, cases, .. } => match find(self.piece, *place) {
                Found::Lacking => None,
                Found::Term(term) if !matches!(term.what, What::Unknown) => Some(taken(cases, &term.what)),
                _ => Some(Taken { edge: cases.len() + 1, contain: 0, known: false }),
            },
            Kind::Pair { p, q, .. } => {
                let lacks = |place: &u16| matches!(find(self.piece, *place), Found::Lacking);
                if [p, q].into_iter().any(lacks) {
                    return None;
                }
                let truth = equal(self.piece, *p, *q);
                let edge = usize::from(truth != Truth::Contradicted);
                Some(Taken { edge, contain: 0, known: truth != Truth::NotKnown })
            }
            Kind::Fail | Kind::Suspend | Kind::Execute(_) => None,
        }
    }

    /// The rules of whose test here the piece says this.
    fn rules(&self, asks: Test, truth: Truth) -> u64 {
        let so = |(_, rule): &(usize, &RuleTests)| match asks {
            Test::Place(place) => rule.at(place).is_some_and(|want| wanted(self.piece, place, want) == truth),
            Test::Pair(p, q) => rule.pairs.contains(&(p, q)) && equal(self.piece, p, q) == truth,
        };
        self.tests.rules.iter().enumerate().filter(so).fold(0, |set, (at, _)| set | 1 << at)
    }

    /// The answer at a leaf.
    fn leaf(&self, leaf: &Kind, unknown: u64, way: &mut Way) -> Answer {
        let edges = way.steps.len() as u8;
        let said = |word, rule, wait| Answer { walk: Walk { word, rule, edges }, wait };
        let Kind::Execute(rule) = leaf else {
            return match leaf {
                Kind::Suspend => said(Word::Suspend, 0, unknown),
                _ => said(Word::Fail, 0, 0),
            };
        };
        way.made = self.made(*rule);
        if way.made.iter().any(|made| made.truth == Truth::Contradicted) {
            return said(Word::Fail, 0, 0);
        }
        let open = way.made.iter().filter(|made| made.truth == Truth::NotKnown);
        match open.fold(0, |wait, made| wait | self.tests.bit(made.test)) {
            0 => said(Word::Commit, *rule, 0),
            wait => said(Word::Execute, *rule, wait),
        }
    }

    /// All tests of a rule, made.
    fn made(&self, rule: u8) -> Vec<Made> {
        let Some(rule) = usize::from(rule).checked_sub(1).and_then(|at| self.tests.rules.get(at)) else {
            return Vec::new();
        };
        let places = rule.wants.iter().map(|(place, want)| Made {
            test: Test::Place(*place),
            want: Some(*want),
            truth: wanted(self.piece, *place, *want),
        });
        let pairs = rule.pairs.iter().map(|(p, q)| Made {
            test: Test::Pair(*p, *q),
            want: None,
            truth: equal(self.piece, *p, *q),
        });
        places.chain(pairs).collect()
    }
}
