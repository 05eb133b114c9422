//! Reading a sheet to the tests of its rules: questions 1 to 11.

use super::places::{argument, child};
use super::records::{PatternRecord, Reader};
use super::variables::{add_wants, by_variable, pairs_of, Occurrence};
use crate::results::Refusal;
use voltunnis_generate::asked::Asked;

/// The most rules that a sheet may have.
pub const MOST_RULES: u8 = 64;

/// The most tests that a sheet may have.
pub const MOST_TESTS: usize = 64;

/// What a rule wants at a place: a symbol with an id from low to high, a compound, or a number on a gauge from low to high.
#[derive(Clone, Copy, Debug, PartialEq, Eq)]
pub enum Want {
    Symbols { low: u16, high: u16 },
    Compound { id: u16, arity: u8 },
    Range { gauge: u8, low: u16, high: u16 },
}

/// A rule's tests, the place tests ascending by place.
#[derive(Default)]
pub struct Rule {
    pub wants: Vec<(u16, Want)>,
    pub pairs: Vec<(u16, u16)>,
}

/// The sheet's tests: its distinct tested places, then its distinct pairs, each list ascending.
/// While a sheet is read neither list grows further than to one more than the sheet may have.
#[derive(Default)]
pub struct Tests {
    pub places: Vec<u16>,
    pub pairs: Vec<(u16, u16)>,
}

/// An accepted sheet.
pub struct Sheet {
    pub arity: u8,
    pub rules: Vec<Rule>,
    pub tests: Tests,
}

/// Puts ascending items in an ascending list of distinct items, as far as the list may grow.
fn merge<T: Ord>(list: &mut Vec<T>, items: impl Iterator<Item = T>) {
    let mut at = 0;
    for item in items {
        while at < list.len() && list[at] < item {
            at += 1;
        }
        if list.len() > MOST_TESTS {
            return;
        }
        if at == list.len() || list[at] != item {
            list.insert(at, item);
        }
    }
}

impl Tests {
    pub fn count(&self) -> usize {
        self.places.len() + self.pairs.len()
    }

    fn add(&mut self, rule: &Rule) {
        merge(&mut self.places, rule.wants.iter().map(|(place, _)| *place));
        merge(&mut self.pairs, rule.pairs.iter().copied());
    }
}

/// A rule while its patterns are read.
struct RuleReader<'a, 'b> {
    from: &'a mut Reader<'b>,
    rule: Rule,
    variables: &'a mut Vec<Occurrence>,
}

impl RuleReader<'_, '_> {
    /// Reads the pattern at a place: questions 4 to 8, then those of its arguments in turn.
    fn pattern(&mut self, place: u16, depth: usize) -> Result<(), Refusal> {
        match self.from.pattern().ok_or(4)? {
            PatternRecord::Anything => {}
            PatternRecord::Symbol(id) => self.rule.wants.push((place, Want::Symbols { low: id, high: id })),
            PatternRecord::Series { low, high } => {
                in_order(low, high)?;
                self.rule.wants.push((place, Want::Symbols { low, high }));
            }
            PatternRecord::Range { low, high } => {
                in_order(low, high)?;
                self.rule.wants.push((place, Want::Range { gauge: 0, low, high }));
            }
            PatternRecord::Gauged { gauge, low, high } => {
                in_order(low, high)?;
                self.rule.wants.push((place, Want::Range { gauge, low, high }));
            }
            PatternRecord::Compound { id, arity } => {
                if depth > 3 {
                    return Err(5);
                }
                if !(1..=4).contains(&arity) {
                    return Err(6);
                }
                self.rule.wants.push((place, Want::Compound { id, arity }));
                for j in 1..=arity {
                    self.pattern(child(place, depth, j), depth + 1)?;
                }
            }
            PatternRecord::Variable(number) => self.variable(number, place, None)?,
            PatternRecord::RangedVariable { number, low, high } => {
                in_order(low, high)?;
                self.variable(number, place, Some((low, high)))?;
            }
        }
        Ok(())
    }

    /// Question 8: is the variable 0 to 15?
    fn variable(&mut self, variable: u8, place: u16, range: Option<(u16, u16)>) -> Result<(), Refusal> {
        if variable > 15 {
            return Err(8);
        }
        self.variables.push(Occurrence { variable, place, range });
        Ok(())
    }

    /// The rule with the tests of its variables: question 9. A rule's pairs are distinct, so one
    /// more of them than a sheet may have is as good as all.
    fn finish(mut self) -> Result<Rule, Refusal> {
        let Rule { wants, pairs } = &mut self.rule;
        let direct = wants.len();
        by_variable(self.variables);
        for records in self.variables.chunk_by(|a, b| a.variable == b.variable) {
            add_wants(records, wants)?;
            pairs.extend(pairs_of(records).take(MOST_TESTS + 1 - pairs.len()));
        }
        if wants.len() > direct {
            wants.sort_unstable_by_key(|(place, _)| *place);
        }
        pairs.sort_unstable();
        Ok(self.rule)
    }
}

/// Question 7: is low at most high?
fn in_order(low: u16, high: u16) -> Result<(), Refusal> {
    if low <= high {
        Ok(())
    } else {
        Err(7)
    }
}

impl Sheet {
    /// Reads a sheet: questions 1 to 11.
    pub fn read(bytes: &[u8]) -> Result<Sheet, Refusal> {
        let mut from = Reader::new(bytes);
        let [arity, count] = from.body_of(0x10).ok_or(1)?;
        if !(1..=8).contains(&arity) {
            return Err(2);
        }
        if count > MOST_RULES {
            return Err(3);
        }
        let mut tests = Tests::default();
        let mut rules = Vec::with_capacity(usize::from(count));
        let mut variables = Vec::new();
        for _ in 0..count {
            variables.clear();
            let mut reader = RuleReader { from: &mut from, rule: Rule::default(), variables: &mut variables };
            for a in 1..=arity {
                reader.pattern(argument(a), 1)?;
            }
            let rule = reader.finish()?;
            tests.add(&rule);
            rules.push(rule);
        }
        if from.left() > 0 {
            return Err(10);
        }
        if tests.count() > MOST_TESTS {
            return Err(11);
        }
        Ok(Sheet { arity, rules, tests })
    }

    /// What a graph generator has to know of the sheet.
    pub fn asked(&self) -> Asked {
        let Tests { places, pairs } = &self.tests;
        let (places, pairs) = (places.clone(), pairs.clone());
        Asked { arity: self.arity, rules: self.rules.len() as u8, places, pairs }
    }
}
