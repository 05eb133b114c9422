//! Tidy sheets (document 02, request 2): the one form of all accepted sheets with the same tests.

use crate::generate::trees::{Pattern, SheetTree};
use std::collections::BTreeMap;

/// A variable of one rule: at how many places it stands, and the common part of its ranges, none if no record of
/// it is ranged.
#[derive(Clone, Copy, Default)]
pub struct Variable {
    pub places: usize,
    pub range: Option<(u16, u16)>,
}

/// The variables of one rule by their numbers.
pub type Variables = BTreeMap<u8, Variable>;

/// The variables that stand in patterns.
pub fn variables(patterns: &[Pattern]) -> Variables {
    let mut variables = Variables::new();
    collect(patterns, &mut variables);
    variables
}

fn collect(patterns: &[Pattern], to: &mut Variables) {
    for pattern in patterns {
        match pattern {
            Pattern::Compound(_, arguments) => collect(arguments, to),
            Pattern::Variable(number) => to.entry(*number).or_default().places += 1,
            Pattern::Ranged(number, low, high) => {
                let Variable { places, range } = to.entry(*number).or_default();
                let (lowest, highest) = range.unwrap_or((*low, *high));
                *range = Some((lowest.max(*low), highest.min(*high)));
                *places += 1;
            }
            _ => {}
        }
    }
}

/// A rule while it is written: its variables, and those that have a number, in the order of their first
/// appearance.
struct Writer<'a> {
    variables: &'a Variables,
    numbered: Vec<u8>,
}

impl Writer<'_> {
    fn patterns(&mut self, patterns: &[Pattern]) -> Vec<Pattern> {
        patterns.iter().map(|pattern| self.pattern(pattern)).collect()
    }

    fn pattern(&mut self, pattern: &Pattern) -> Pattern {
        match pattern {
            Pattern::Variable(number) | Pattern::Ranged(number, ..) => self.variable(*number),
            Pattern::Compound(id, arguments) => Pattern::Compound(*id, self.patterns(arguments)),
            Pattern::Series(low, high) if low == high => Pattern::Symbol(*low),
            Pattern::Gauged(0, low, high) => Pattern::Range(*low, *high),
            other => other.clone(),
        }
    }

    /// One that stands once is anything or its range; a repeated one has its number and its common range, if any.
    fn variable(&mut self, old: u8) -> Pattern {
        let Variable { places, range } = self.variables[&old];
        if places == 1 {
            return range.map_or(Pattern::Anything, |(low, high)| Pattern::Range(low, high));
        }
        let number = self.number(old);
        range.map_or(Pattern::Variable(number), |(low, high)| Pattern::Ranged(number, low, high))
    }

    /// The number of a repeated variable: how many others appear before it.
    fn number(&mut self, old: u8) -> u8 {
        let before = self.numbered.iter().position(|known| *known == old);
        before.unwrap_or_else(|| {
            self.numbered.push(old);
            self.numbered.len() - 1
        }) as u8
    }
}

/// The tidy form of a rule that has these variables.
pub fn rule(patterns: &[Pattern], variables: &Variables) -> Vec<Pattern> {
    Writer { variables, numbered: Vec::new() }.patterns(patterns)
}

/// The tidy form of a sheet.
pub fn sheet(tree: &SheetTree) -> SheetTree {
    let rules = tree.rules.iter().map(|patterns| rule(patterns, &variables(patterns))).collect();
    SheetTree { arity: tree.arity, rules }
}
