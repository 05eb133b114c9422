//! Sheets, pieces and graphs as trees. A tree may break any limit that the library asks about.

use super::span::Span;

/// A sheet: its rules, each with one pattern for an argument.
#[derive(Clone, Debug)]
pub struct Sheet {
    pub arity: u8,
    /// Where its head stands.
    pub head: Span,
    pub rules: Vec<Rule>,
}

/// A rule, with the part of the source that it takes.
#[derive(Clone, Debug)]
pub struct Rule {
    pub at: Span,
    pub patterns: Vec<Pattern>,
}

/// A pattern, with the part of the source that it takes.
#[derive(Clone, Debug)]
pub struct Pattern {
    pub at: Span,
    pub form: Form,
}

/// What a pattern is.
#[derive(Clone, Debug)]
pub enum Form {
    Anything,
    Symbol(u16),
    /// Every symbol with an id from low to high.
    Series(u16, u16),
    /// A number of gauge 0 from low to high.
    Range(u16, u16),
    Compound(u16, Vec<Pattern>),
    Variable(u8),
    Ranged(u8, u16, u16),
    /// A number of the gauge that is named, from low to high.
    Gauged(u8, u16, u16),
}

/// A piece: its terms, one for an argument, with the part of the source that it takes.
#[derive(Clone, Debug)]
pub struct Piece {
    pub at: Span,
    pub terms: Vec<Term>,
}

/// A term, with the part of the source that it takes.
#[derive(Clone, Debug)]
pub struct Term {
    pub at: Span,
    pub what: What,
}

/// What a term is.
#[derive(Clone, Debug)]
pub enum What {
    Unknown,
    /// A reading that will never come.
    Never,
    Symbol(u16),
    /// A number on gauge 0.
    Number(u16),
    /// A number on gauge 0 known to lie between two, low and high.
    Between(u16, u16),
    Compound(u16, Vec<Term>),
    /// A number on the gauge that is named.
    Gauged(u8, u16),
}

impl What {
    /// The gauge that it is on, and the lowest and the highest number that it may be, if it is a number or a span.
    pub fn numbers(&self) -> Option<(u8, u16, u16)> {
        match self {
            What::Number(value) => Some((0, *value, *value)),
            What::Between(low, high) => Some((0, *low, *high)),
            What::Gauged(gauge, value) => Some((*gauge, *value, *value)),
            _ => None,
        }
    }

    /// Whether it is a reading that will never come, or holds one: then it differs from every term.
    pub fn holds_never(&self) -> bool {
        match self {
            What::Never => true,
            What::Compound(_, arguments) => arguments.iter().any(|argument| argument.what.holds_never()),
            _ => false,
        }
    }
}

/// A graph, its nodes by number.
#[derive(Clone, Debug)]
pub struct Graph {
    pub arity: u8,
    pub rules: u8,
    /// Where its head stands.
    pub head: Span,
    pub nodes: Vec<Node>,
}

/// A node, with the part of the source that it takes.
#[derive(Clone, Debug)]
pub struct Node {
    pub at: Span,
    pub kind: Kind,
}

/// What a node is.
#[derive(Clone, Debug, PartialEq, Eq)]
pub enum Kind {
    Fail,
    Suspend,
    Execute(u8),
    Switch { place: u16, neither: u16, unknown: u16, cases: Vec<(Case, u16)> },
    Pair { p: u16, q: u16, no: u16, other: u16 },
}

/// What a case of a switch takes.
#[derive(Clone, Copy, Debug, PartialEq, Eq)]
pub enum Case {
    /// A run of ids, from low to high.
    Symbols(u16, u16),
    Compound(u16, u8),
    /// Numbers of a gauge, from low to high.
    Numbers(u8, u16, u16),
}
