//! Pieces made simpler: fewer arguments, unknowns and simpler terms, smaller ids, numbers and spans.

use super::{lower, narrow, parts, sheets, Value};
use crate::trees::{piece_bytes, read_piece, SheetTree, Term};
use std::ops::Range;

/// Pieces one after another as far as they can be read, each by its terms, and the bytes after them.
#[derive(Clone)]
pub struct Several {
    pub pieces: Vec<Vec<Term>>,
    tail: Vec<u8>,
}

impl Several {
    pub fn read(mut bytes: &[u8]) -> Several {
        let mut pieces = Vec::new();
        while let Some((terms, rest)) = read_piece(bytes) {
            pieces.push(terms);
            bytes = rest;
        }
        Several { pieces, tail: bytes.to_vec() }
    }

    pub fn bytes(&self) -> Vec<u8> {
        self.pieces.iter().flat_map(|terms| piece_bytes(terms)).chain(self.tail.iter().copied()).collect()
    }

    /// How many results they have: one more for what cannot be read.
    pub fn results(&self) -> usize {
        self.pieces.len() + usize::from(!self.tail.is_empty())
    }

    /// The pieces without some.
    pub fn without(&self, part: &Range<usize>) -> Option<Several> {
        let mut several = self.clone();
        several.pieces.get(part.clone())?;
        several.pieces.drain(part.clone());
        Some(several)
    }

    /// The pieces, each changed alike, if all can be.
    pub fn each(&self, change: impl Fn(&[Term]) -> Option<Vec<Term>>) -> Option<Several> {
        let pieces = self.pieces.iter().map(|terms| change(terms)).collect::<Option<_>>()?;
        Some(Several { pieces, tail: self.tail.clone() })
    }
}

/// A way to make a piece simpler.
#[derive(Clone, Debug)]
pub enum Step {
    /// Without these arguments.
    Arguments(Range<usize>),
    /// Another term in the stead of one, which is counted from the first.
    Term(usize, Term),
}

/// The terms of a piece, each before those in it.
fn all<'a>(terms: &'a [Term]) -> Vec<&'a Term> {
    let below = |term: &'a Term| match term {
        Term::Compound(_, arguments) => all(arguments),
        _ => Vec::new(),
    };
    terms.iter().flat_map(|term| std::iter::once(term).chain(below(term))).collect()
}

/// Does the same to each term, before those in it.
fn visit(terms: &mut [Term], change: &mut dyn FnMut(&mut Term)) {
    for term in terms {
        change(term);
        if let Term::Compound(_, arguments) = term {
            visit(arguments, change);
        }
    }
}

/// Simpler terms in the stead of one.
fn simpler(term: &Term) -> Vec<Term> {
    let mut new = vec![Term::Unknown];
    match term {
        Term::Unknown => new.clear(),
        Term::Symbol(id) => new.extend(lower(*id).map(Term::Symbol)),
        Term::Number(value) => {
            new.push(Term::Symbol(0));
            new.extend(lower(*value).map(Term::Number));
        }
        Term::Compound(id, arguments) => {
            new.push(Term::Symbol(*id));
            new.extend(arguments.iter().cloned());
            new.extend(parts(arguments.len()).map(|part| {
                let mut fewer = arguments.clone();
                fewer.drain(part);
                Term::Compound(*id, fewer)
            }));
            new.extend(lower(*id).map(|id| Term::Compound(id, arguments.clone())));
        }
        Term::Span(low, high) => {
            new.extend([Term::Symbol(0), Term::Number(*low), Term::Number(*high)]);
            new.extend(sheets::ranges(*low, *high).map(|(low, high)| Term::Span(low, high)));
        }
        Term::Gauged(gauge, value) => {
            new.extend([Term::Symbol(0), Term::Number(*value)]);
            new.extend(lower((*gauge).into()).map(|gauge| Term::Gauged(gauge as u8, *value)));
            new.extend(lower(*value).map(|value| Term::Gauged(*gauge, value)));
        }
        Term::Never => {}
    }
    new
}

/// All steps to try, those that leave out most first.
pub fn steps(terms: &[Term]) -> impl Iterator<Item = Step> + '_ {
    let each = |(at, term): (usize, &Term)| simpler(term).into_iter().map(move |new| Step::Term(at, new));
    let terms_in = all(terms).into_iter().enumerate().flat_map(each).collect::<Vec<_>>();
    parts(terms.len()).map(Step::Arguments).chain(terms_in)
}

/// The piece after a step, if it can be made.
pub fn after(terms: &[Term], step: &Step) -> Option<Vec<Term>> {
    let mut terms = terms.to_vec();
    match step {
        Step::Arguments(part) => {
            terms.get(part.clone())?;
            terms.drain(part.clone());
        }
        Step::Term(at, new) => {
            let mut left = *at as isize;
            visit(&mut terms, &mut |term| {
                if left == 0 {
                    *term = new.clone();
                }
                left -= 1;
            });
        }
    }
    Some(terms)
}

/// Does the same to each id, to each number, or to each gauge.
pub fn each(terms: &mut [Term], which: Value, change: &mut dyn FnMut(&mut u16)) {
    visit(terms, &mut |term| match term {
        Term::Symbol(id) | Term::Compound(id, _) if which == Value::Id => change(id),
        Term::Number(value) | Term::Gauged(_, value) if which == Value::Number => change(value),
        Term::Gauged(gauge, _) if which == Value::Gauge => narrow(gauge, change),
        Term::Span(low, high) if which == Value::Number => {
            change(low);
            change(high);
        }
        _ => {}
    });
}

/// The piece that follows a sheet through a step: without the argument that was left out, or with the parts
/// of a compound as arguments.
pub fn following(terms: &[Term], old: &SheetTree, step: &sheets::Step) -> Option<Vec<Term>> {
    let mut terms = terms.to_vec();
    match step {
        sheets::Step::Argument(at) if *at < terms.len() => drop(terms.remove(*at)),
        sheets::Step::Lift(at) if *at < terms.len() => {
            let count = sheets::liftable(old, *at)?;
            let parts = match terms.remove(*at) {
                Term::Compound(_, parts) if parts.len() == count => parts,
                missing @ (Term::Unknown | Term::Never) => vec![missing; count],
                _ => return None,
            };
            terms.splice(*at..*at, parts);
        }
        _ => {}
    }
    Some(terms)
}
