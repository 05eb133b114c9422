//! Sheets and pieces as trees, the bytes that spell them, and those bytes read. A tree may break any limit.

use crate::records::{PatternRecord, Reader, TermRecord};

/// Trees are read down to so many levels: some more than a sheet or a piece may have.
const LEVELS: usize = 8;

/// A pattern of a rule.
#[derive(Clone, Debug, PartialEq, Eq)]
pub enum Pattern {
    Anything,
    Symbol(u16),
    Range(u16, u16),
    Compound(u16, Vec<Pattern>),
    Variable(u8),
    Ranged(u8, u16, u16),
    /// The symbols with an id from the first to the last.
    Series(u16, u16),
    /// The numbers on a gauge from the first to the last.
    Gauged(u8, u16, u16),
}

/// A term of a piece.
#[derive(Clone, Debug, PartialEq, Eq)]
pub enum Term {
    Unknown,
    Symbol(u16),
    Number(u16),
    Compound(u16, Vec<Term>),
    /// A number known to lie between two.
    Span(u16, u16),
    /// A reading that will never come.
    Never,
    /// A number on a gauge.
    Gauged(u8, u16),
}

/// A sheet: its rules, each one pattern for an argument.
#[derive(Clone, Debug, PartialEq, Eq)]
pub struct SheetTree {
    pub arity: u8,
    pub rules: Vec<Vec<Pattern>>,
}

fn wide(to: &mut Vec<u8>, value: u16) {
    to.extend(value.to_be_bytes());
}

impl Pattern {
    pub fn write(&self, to: &mut Vec<u8>) {
        match self {
            Pattern::Anything => to.push(0x20),
            Pattern::Symbol(id) => {
                to.push(0x21);
                wide(to, *id);
            }
            Pattern::Range(low, high) => {
                to.push(0x22);
                wide(to, *low);
                wide(to, *high);
            }
            Pattern::Compound(id, arguments) => {
                to.push(0x23);
                wide(to, *id);
                to.push(arguments.len() as u8);
                arguments.iter().for_each(|argument| argument.write(to));
            }
            Pattern::Variable(number) => to.extend([0x24, *number]),
            Pattern::Ranged(number, low, high) => {
                to.extend([0x25, *number]);
                wide(to, *low);
                wide(to, *high);
            }
            Pattern::Series(low, high) => {
                to.push(0x26);
                wide(to, *low);
                wide(to, *high);
            }
            Pattern::Gauged(gauge, low, high) => {
                to.extend([0x27, *gauge]);
                wide(to, *low);
                wide(to, *high);
            }
        }
    }
}

impl Pattern {
    /// The pattern that comes next, whatever limits it breaks.
    fn read(from: &mut Reader, levels: usize) -> Option<Pattern> {
        Some(match from.pattern()? {
            PatternRecord::Anything => Pattern::Anything,
            PatternRecord::Symbol(id) => Pattern::Symbol(id),
            PatternRecord::Range { low, high } => Pattern::Range(low, high),
            PatternRecord::Compound { id, arity } => {
                let below = levels.checked_sub(1)?;
                let arguments = (0..arity).map(|_| Pattern::read(from, below));
                Pattern::Compound(id, arguments.collect::<Option<_>>()?)
            }
            PatternRecord::Variable(number) => Pattern::Variable(number),
            PatternRecord::RangedVariable { number, low, high } => Pattern::Ranged(number, low, high),
            PatternRecord::Series { low, high } => Pattern::Series(low, high),
            PatternRecord::Gauged { gauge, low, high } => Pattern::Gauged(gauge, low, high),
        })
    }
}

impl Term {
    /// The term that comes next, whatever limits it breaks.
    fn read(from: &mut Reader, levels: usize) -> Option<Term> {
        Some(match from.term()? {
            TermRecord::Unknown => Term::Unknown,
            TermRecord::Symbol(id) => Term::Symbol(id),
            TermRecord::Number(value) => Term::Number(value),
            TermRecord::Compound { id, arity } => {
                let below = levels.checked_sub(1)?;
                let arguments = (0..arity).map(|_| Term::read(from, below));
                Term::Compound(id, arguments.collect::<Option<_>>()?)
            }
            TermRecord::Span { low, high } => Term::Span(low, high),
            TermRecord::Never => Term::Never,
            TermRecord::Gauged { gauge, value } => Term::Gauged(gauge, value),
        })
    }

    pub fn write(&self, to: &mut Vec<u8>) {
        match self {
            Term::Unknown => to.push(0x30),
            Term::Symbol(id) => {
                to.push(0x31);
                wide(to, *id);
            }
            Term::Number(value) => {
                to.push(0x32);
                wide(to, *value);
            }
            Term::Compound(id, arguments) => {
                to.push(0x33);
                wide(to, *id);
                to.push(arguments.len() as u8);
                arguments.iter().for_each(|argument| argument.write(to));
            }
            Term::Span(low, high) => {
                to.push(0x34);
                wide(to, *low);
                wide(to, *high);
            }
            Term::Never => to.push(0x35),
            Term::Gauged(gauge, value) => {
                to.extend([0x36, *gauge]);
                wide(to, *value);
            }
        }
    }
}

impl SheetTree {
    /// The sheet's bytes.
    pub fn bytes(&self) -> Vec<u8> {
        let mut to = vec![0x10, self.arity, self.rules.len() as u8];
        self.rules.iter().flatten().for_each(|pattern| pattern.write(&mut to));
        to
    }

    /// The sheet that these bytes begin with, whatever limits it breaks, and the bytes after it. Written
    /// again it is the bytes that it was read from.
    pub fn read(bytes: &[u8]) -> Option<(SheetTree, &[u8])> {
        let mut from = Reader::new(bytes);
        let [arity, count] = from.body_of(0x10)?;
        let mut rules = Vec::new();
        for _ in 0..count {
            let rule = (0..arity).map(|_| Pattern::read(&mut from, LEVELS));
            rules.push(rule.collect::<Option<_>>()?);
        }
        Some((SheetTree { arity, rules }, from.rest()))
    }
}

/// The patterns of a rule, each before those in it.
pub fn all<'a>(rule: &'a [Pattern]) -> Vec<&'a Pattern> {
    let below = |pattern: &'a Pattern| match pattern {
        Pattern::Compound(_, arguments) => all(arguments),
        _ => Vec::new(),
    };
    rule.iter().flat_map(|pattern| std::iter::once(pattern).chain(below(pattern))).collect()
}

/// Does the same to each pattern of a rule, before those in it.
pub fn visit(rule: &mut [Pattern], change: &mut dyn FnMut(&mut Pattern)) {
    for pattern in rule {
        change(pattern);
        if let Pattern::Compound(_, arguments) = pattern {
            visit(arguments, change);
        }
    }
}

/// Puts another pattern in the stead of one, which is counted from the rule's first.
pub fn replace(rule: &mut [Pattern], at: usize, new: &Pattern) {
    let mut left = at as isize;
    visit(rule, &mut |pattern| {
        if left == 0 {
            *pattern = new.clone();
        }
        left -= 1;
    });
}

/// The terms of the piece that these bytes begin with, whatever limits it breaks, and the bytes after it.
pub fn read_piece(bytes: &[u8]) -> Option<(Vec<Term>, &[u8])> {
    let mut from = Reader::new(bytes);
    let [arity] = from.body_of(0x11)?;
    let terms = (0..arity).map(|_| Term::read(&mut from, LEVELS)).collect::<Option<_>>()?;
    Some((terms, from.rest()))
}

/// The bytes of the piece with these terms.
pub fn piece_bytes(terms: &[Term]) -> Vec<u8> {
    let mut to = vec![0x11, terms.len() as u8];
    terms.iter().for_each(|term| term.write(&mut to));
    to
}
