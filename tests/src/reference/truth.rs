//! What a piece says about a test: it holds, is contradicted, or is not known.

use super::piece::{Cell, Found, Piece};
use super::records::TermRecord;
use super::sheet::Want;

#[derive(Clone, Copy, Debug, PartialEq, Eq)]
pub enum Truth {
    Holds,
    NotKnown,
    Contradicted,
}

use Truth::{Contradicted, Holds, NotKnown};

impl Truth {
    fn of(holds: bool) -> Truth {
        if holds {
            Holds
        } else {
            Contradicted
        }
    }

    /// Whether both hold: contradicted as soon as one is.
    pub fn and(self, other: Truth) -> Truth {
        match (self, other) {
            (Contradicted, _) | (_, Contradicted) => Contradicted,
            (Holds, Holds) => Holds,
            _ => NotKnown,
        }
    }
}

/// Whether a place test holds.
pub fn wanted(piece: &Piece, place: u16, want: Want) -> Truth {
    let Found::Term(cells) = piece.find(place) else {
        return Contradicted;
    };
    match (cells[0].term, want) {
        (TermRecord::Unknown, _) => NotKnown,
        (TermRecord::Symbol(id), Want::Symbols { low, high }) => Truth::of(low <= id && id <= high),
        (term, Want::Range { gauge, low, high }) => match ends(term) {
            Some(ends) if ends.gauge == gauge => inside(ends, low, high),
            _ => Contradicted,
        },
        (TermRecord::Compound { id, arity }, Want::Compound { id: wanted, arity: many }) => {
            Truth::of(id == wanted && arity == many)
        }
        _ => Contradicted,
    }
}

/// Whether a number that lies between two ends lies in a range on its gauge: it does if both ends do, and does not if
/// all numbers between them are outside.
fn inside(Ends { first, last, .. }: Ends, low: u16, high: u16) -> Truth {
    if low <= first && last <= high {
        Holds
    } else if last < low || high < first {
        Contradicted
    } else {
        NotKnown
    }
}

/// A number on a gauge, between two ends.
#[derive(Clone, Copy, PartialEq, Eq)]
pub struct Ends {
    pub gauge: u8,
    pub first: u16,
    pub last: u16,
}

/// Between which ends a number lies, and on which gauge: 0 for a span, and where none is named. None for other terms.
pub fn ends(term: TermRecord) -> Option<Ends> {
    let (gauge, first, last) = match term {
        TermRecord::Number(n) => (0, n, n),
        TermRecord::Gauged { gauge, value } => (gauge, value, value),
        TermRecord::Span { low, high } => (0, low, high),
        _ => return None,
    };
    Some(Ends { gauge, first, last })
}

/// Whether two numbers, each between its ends, are the same: on the same gauge, of the same value.
fn same_numbers(a: Ends, b: Ends) -> Truth {
    if a.gauge != b.gauge || a.last < b.first || b.last < a.first {
        Contradicted
    } else if a.first == a.last && b.first == b.last {
        Holds
    } else {
        NotKnown
    }
}

/// Whether the equality test of two places holds. A term that is or holds a reading that will never come differs
/// from every term.
pub fn equal(piece: &Piece, p: u16, q: u16) -> Truth {
    match (piece.find(p), piece.find(q)) {
        (Found::Term(a), Found::Term(b)) if !holds_never(a) && !holds_never(b) => same(a, b),
        _ => Contradicted,
    }
}

/// Whether a term, the first of its cells, is or holds a reading that will never come.
fn holds_never(term: &[Cell]) -> bool {
    term[..usize::from(term[0].cells)].iter().any(|cell| cell.term == TermRecord::Never)
}

/// Compares two terms, each the first of its cells, all of whose readings are taken or may still come.
fn same(a: &[Cell], b: &[Cell]) -> Truth {
    use TermRecord::{Compound, Symbol, Unknown};
    let (first, second) = (a[0].term, b[0].term);
    if let (Some(m), Some(n)) = (ends(first), ends(second)) {
        return same_numbers(m, n);
    }
    match (first, second) {
        (Unknown, _) | (_, Unknown) => NotKnown,
        (Symbol(s), Symbol(t)) => Truth::of(s == t),
        (Compound { id: f, arity: j }, Compound { id: g, arity: k }) if f == g && j == k => {
            same_arguments(&a[1..], &b[1..], j)
        }
        _ => Contradicted,
    }
}

/// Compares so many terms in turn.
fn same_arguments(mut a: &[Cell], mut b: &[Cell], count: u8) -> Truth {
    let mut all = Holds;
    for _ in 0..count {
        all = all.and(same(a, b));
        a = &a[usize::from(a[0].cells)..];
        b = &b[usize::from(b[0].cells)..];
    }
    all
}
