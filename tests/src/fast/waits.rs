//! The wait list of a suspended piece on whose walk spans were met.

use super::compare::{equal, Truth};
use super::graph::NodeStarts;
use super::piece::{Piece, NOT_KNOWN};
use super::places::STEP;
use super::records::{self, on_gauge, Node, Pattern};
use super::rule::{in_range, in_series, is_compound};
use super::sheet::{RuleStarts, Sheet};
use super::variables::Variables;

/// What the tests of a rule say: those not known, and those contradicted.
#[derive(Clone, Copy)]
struct Said {
    not_known: u64,
    contradicted: u64,
}

impl Said {
    #[inline(always)]
    fn note(&mut self, test: usize, truth: Truth) {
        match truth {
            Truth::Holds => {}
            Truth::NotKnown => self.not_known |= 1 << (test & 63),
            Truth::Contradicted => self.contradicted |= 1 << (test & 63),
        }
    }
}

/// A test at an offset that is a known term's, or not known.
#[inline(always)]
fn truth(offset: usize, holds: bool) -> Truth {
    match (offset, holds) {
        (NOT_KNOWN, _) => Truth::NotKnown,
        (_, true) => Truth::Holds,
        (_, false) => Truth::Contradicted,
    }
}

/// The tests of a rule made on a piece.
struct Making<'a> {
    sheet: &'a Sheet<'a>,
    piece: &'a Piece<'a>,
    variables: &'a mut Variables,
    said: Said,
}

impl Making<'_> {
    /// Makes the place tests of a pattern; gives how many bytes it has.
    fn pattern(&mut self, bytes: &[u8], place: usize, depth: usize) -> usize {
        let (test, offset) = (self.sheet.place_test(place) as usize, self.piece.find(place));
        match records::pattern(bytes) {
            None | Some(Pattern::Anything) => 1,
            Some(Pattern::Symbol(id)) => {
                self.said.note(test, truth(offset, in_series(self.piece, offset, id, id)));
                3
            }
            Some(Pattern::Series(low, high)) => {
                self.said.note(test, truth(offset, in_series(self.piece, offset, low, high)));
                5
            }
            Some(Pattern::Range(low, high)) => {
                self.said.note(test, in_range(self.piece, offset, low.into(), high.into()));
                5
            }
            Some(Pattern::Gauged(gauge, low, high)) => {
                let (low, high) = (on_gauge(gauge, low), on_gauge(gauge, high));
                self.said.note(test, in_range(self.piece, offset, low, high));
                6
            }
            Some(Pattern::Compound(id, arity)) => {
                self.said.note(test, truth(offset, is_compound(self.piece, offset, id, arity)));
                4 + self.patterns(&bytes[4..], usize::from(arity), place + 1, depth + 1)
            }
            Some(Pattern::Variable(number)) => {
                self.variables.meet(number, place);
                2
            }
            Some(Pattern::Ranged(number, low, high)) => {
                self.variables.meet_ranged(number, place, low, high);
                6
            }
        }
    }

    /// Makes the place tests of so many patterns side by side, the first at this place.
    fn patterns(&mut self, bytes: &[u8], count: usize, first: usize, depth: usize) -> usize {
        let mut at = 0;
        for i in 0..count {
            at += self.pattern(&bytes[at..], first + i * STEP[depth - 1], depth);
        }
        at
    }

    /// Makes the tests of a variable.
    fn variable(&mut self, number: usize) {
        let count = self.variables.count(number);
        for i in 0..count {
            let p = self.variables.place(number, i);
            if self.variables.is_ranged(number) {
                let (low, high) = (self.variables.low(number), self.variables.high(number));
                let offset = self.piece.find(usize::from(p));
                let test = self.sheet.place_test(usize::from(p)) as usize;
                self.said.note(test, in_range(self.piece, offset, low.into(), high.into()));
            }
            for j in i + 1..count {
                let q = self.variables.place(number, j);
                let same = equal(self.piece, usize::from(p), usize::from(q));
                self.said.note(self.sheet.pair_test(p, q), same);
            }
        }
    }

    /// Makes all tests of the rule whose patterns begin these bytes.
    fn rule(&mut self, bytes: &[u8]) -> Said {
        self.said = Said { not_known: 0, contradicted: 0 };
        self.variables.clear();
        self.patterns(bytes, usize::from(self.sheet.arity), 0, 1);
        let mut left = self.variables.met();
        while left != 0 {
            self.variable(left.trailing_zeros() as usize);
            left &= left - 1;
        }
        self.said
    }
}

/// The tests that the nodes of a path ask, in turn.
fn asked(sheet: &Sheet, graph: &[u8], nodes: &NodeStarts, path: &[u16], tests: &mut [u8; 64]) {
    for (test, node) in tests.iter_mut().zip(path) {
        *test = match records::node(&graph[nodes[usize::from(*node)] as usize..]) {
            Some(Node::Switch { place, .. }) => sheet.place_test(usize::from(place)) as u8,
            Some(Node::Pair { p, q, .. }) => sheet.pair_test(p, q) as u8,
            _ => 0,
        };
    }
}

/// The tests met on a path that are not known for a rule live there.
pub fn for_live_rules(
    sheet: &Sheet,
    rules: &RuleStarts,
    graph: &[u8],
    nodes: &NodeStarts,
    path: &[u16],
    piece: &Piece,
    variables: &mut Variables,
) -> u64 {
    let mut tests = [0; 64];
    asked(sheet, graph, nodes, path, &mut tests);
    let mut making = Making { sheet, piece, variables, said: Said { not_known: 0, contradicted: 0 } };
    let mut listed = 0;
    for start in &rules[..usize::from(sheet.rules)] {
        let said = making.rule(&sheet.bytes[*start as usize..]);
        for test in &tests[..path.len()] {
            if said.contradicted >> test & 1 == 1 {
                break;
            }
            listed |= said.not_known & 1 << test;
        }
    }
    listed
}
