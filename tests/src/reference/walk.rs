//! The walk over a graph: questions 26 and 27, the answer, the edges walked and the wait list.

use super::nodes::{Case, Node};
use super::piece::{Found, Piece};
use super::records::TermRecord;
use super::sheet::{Rule, Sheet};
use super::truth::{ends, equal, wanted, Ends, Truth};
use crate::results::{Answer, Refusal, Walk, Word};
use std::cmp::Reverse;

/// The most edges that a walk may take.
const MOST_EDGES: u8 = 64;

/// Walks an accepted graph from node 0.
pub fn walk(sheet: &Sheet, nodes: &[Node], piece: &Piece) -> Result<Answer, Refusal> {
    let mut met = Vec::new();
    let mut node = 0;
    loop {
        let edges = met.len() as u8;
        let said = |word, rule, wait| Ok(Answer { walk: Walk { word, rule, edges }, wait });
        let next = &nodes[usize::from(node)];
        match next {
            Node::Fail => return said(Word::Fail, 0, 0),
            Node::Suspend => return said(Word::Suspend, 0, suspended(sheet, &met, piece)),
            Node::Execute(rule) => {
                let (word, wait) = execute(sheet, *rule, piece);
                return said(word, if word == Word::Fail { 0 } else { *rule }, wait);
            }
            _ if edges == MOST_EDGES => return Err(26),
            Node::Switch { place, neither, unknown, cases } => {
                let Found::Term(cells) = piece.find(*place) else {
                    return Err(27);
                };
                let term = cells[0].term;
                let is_unknown = term == TermRecord::Unknown;
                node = if is_unknown { *unknown } else { taken(cases, term).map_or(*neither, Case::node) };
                met.push(Met::Place(*place, is_unknown));
            }
            Node::Pair { p, q, no, other } => {
                if [*p, *q].iter().any(|place| matches!(piece.find(*place), Found::Lacking)) {
                    return Err(27);
                }
                let truth = equal(piece, *p, *q);
                node = if truth == Truth::Contradicted { *no } else { *other };
                met.push(Met::Pair((*p, *q), truth));
            }
        }
    }
}

/// The case that a term follows which is not unknown. Of the cases of its gauge that contain it, a number or span follows
/// the one with the highest low, then the lowest high. A reading that will never come follows none.
fn taken(cases: &[Case], term: TermRecord) -> Option<&Case> {
    if let Some(Ends { gauge, first, last }) = ends(term) {
        let contain = |case: &&Case| match case {
            Case::Numbers { gauge: on, low, high, .. } => *on == gauge && *low <= first && last <= *high,
            _ => false,
        };
        let narrowest = |case: &&Case| match case {
            Case::Numbers { low, high, .. } => (*low, Reverse(*high)),
            _ => unreachable!("a case of numbers"),
        };
        return cases.iter().filter(contain).max_by_key(narrowest);
    }
    cases.iter().find(|case| match (case, term) {
        (Case::Symbols { low, high, .. }, TermRecord::Symbol(id)) => *low <= id && id <= *high,
        (Case::Compound { id, arity, .. }, TermRecord::Compound { id: other, arity: many }) => {
            *id == other && *arity == many
        }
        _ => false,
    })
}

/// A test met on a walk: a place, and whether it is unknown there; or a pair, and what the piece says about it.
#[derive(Clone, Copy)]
enum Met {
    Place(u16, bool),
    Pair((u16, u16), Truth),
}

/// What a test that was met says for a rule, if the rule has it.
fn for_rule(rule: &Rule, met: Met, piece: &Piece) -> Option<Truth> {
    match met {
        Met::Place(place, _) => {
            let at = rule.wants.binary_search_by_key(&place, |(place, _)| *place).ok()?;
            Some(wanted(piece, place, rule.wants[at].1))
        }
        Met::Pair(pair, truth) => rule.pairs.binary_search(&pair).ok().map(|_| truth),
    }
}

/// The wait list of suspend: the tests met that are not known, and each place met whose span lies partly inside
/// and partly outside the range of a rule live there. A rule is live until a test of it met is contradicted.
fn suspended(sheet: &Sheet, walked: &[Met], piece: &Piece) -> u64 {
    let mut wait = 0;
    let mut live: Vec<&Rule> = sheet.rules.iter().collect();
    for &met in walked {
        let (test, mut listed) = match met {
            Met::Place(place, is_unknown) => (sheet.tests.place(place), is_unknown),
            Met::Pair(pair, truth) => (sheet.tests.pair(pair), truth == Truth::NotKnown),
        };
        live.retain(|rule| match for_rule(rule, met, piece) {
            Some(Truth::NotKnown) => {
                listed = true;
                true
            }
            said => said != Some(Truth::Contradicted),
        });
        wait |= u64::from(listed) << test.expect("question 23: a test of the sheet");
    }
    wait
}

/// Makes all tests of a rule: the answer's word, and for execute the tests that are not known.
fn execute(sheet: &Sheet, rule: u8, piece: &Piece) -> (Word, u64) {
    let rule = &sheet.rules[usize::from(rule) - 1];
    let places =
        rule.wants.iter().map(|(place, want)| (sheet.tests.place(*place), wanted(piece, *place, *want)));
    let pairs = rule.pairs.iter().map(|(p, q)| (sheet.tests.pair((*p, *q)), equal(piece, *p, *q)));
    let mut wait = 0;
    for (test, truth) in places.chain(pairs) {
        match truth {
            Truth::Contradicted => return (Word::Fail, 0),
            Truth::NotKnown => wait |= 1_u64 << test.expect("a test of the sheet"),
            Truth::Holds => {}
        }
    }
    (if wait == 0 { Word::Commit } else { Word::Execute }, wait)
}
