//! Tiny sheets and pieces, which are tried in the stead of larger ones.

use super::Build;
use crate::calls::{Call, Name, Role};
use crate::trees::{piece_bytes, Pattern, SheetTree, Term};

/// Sheets of one or two rules, or none.
fn sheets() -> Vec<SheetTree> {
    use Pattern::{Anything, Compound, Gauged, Range, Series, Symbol, Variable};
    let one = |pattern: Pattern| SheetTree { arity: 1, rules: vec![vec![pattern]] };
    let two = |first, second| SheetTree { arity: 1, rules: vec![vec![first], vec![second]] };
    vec![
        SheetTree { arity: 1, rules: vec![] },
        one(Anything),
        one(Symbol(0)),
        one(Range(0, 0)),
        one(Gauged(1, 0, 0)),
        one(Series(0, 1)),
        one(Compound(0, vec![Anything])),
        two(Anything, Anything),
        two(Anything, Symbol(0)),
        two(Symbol(0), Symbol(0)),
        two(Symbol(0), Symbol(1)),
        two(Symbol(0), Series(0, 1)),
        two(Series(0, 1), Series(1, 2)),
        two(Range(0, 0), Symbol(0)),
        two(Anything, Gauged(1, 0, 0)),
        two(Range(0, 0), Gauged(1, 0, 0)),
        SheetTree { arity: 2, rules: vec![vec![Variable(0); 2]] },
    ]
}

/// Pieces of one or two arguments.
fn pieces() -> Vec<Vec<Term>> {
    use Term::{Compound, Gauged, Never, Number, Span, Symbol, Unknown};
    vec![
        vec![Unknown],
        vec![Symbol(0)],
        vec![Symbol(1)],
        vec![Number(0)],
        vec![Span(0, 0)],
        vec![Span(0, 1)],
        vec![Never],
        vec![Gauged(0, 0)],
        vec![Gauged(1, 0)],
        vec![Compound(0, vec![Unknown])],
        vec![Unknown, Unknown],
        vec![Symbol(0), Unknown],
        vec![Symbol(0), Symbol(0)],
        vec![Symbol(0), Symbol(1)],
        vec![Unknown, Never],
        vec![Never, Never],
        vec![Number(0), Gauged(1, 0)],
    ]
}

/// Calls of this name with tiny sheets and pieces of one arity, and with the sheets' own graphs; none for a
/// call that is lent a buffer.
pub fn calls(name: Name, build: Build) -> Vec<Call> {
    if name.roles().contains(&Role::Buffer) {
        return Vec::new();
    }
    let mut calls = Vec::new();
    for sheet in sheets() {
        let bytes = sheet.bytes();
        let own = build(&bytes, None).unwrap_or_default();
        for piece in pieces().iter().filter(|piece| piece.len() == usize::from(sheet.arity)) {
            calls.push(Call::new(name, |role| match role {
                Role::Sheet => bytes.clone(),
                Role::Graph => own.clone(),
                Role::Piece => piece_bytes(piece),
                Role::Pieces | Role::Order | Role::Positions | Role::Buffer => Vec::new(),
            }));
        }
    }
    calls.dedup();
    calls
}
