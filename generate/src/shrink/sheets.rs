//! Sheets made simpler: fewer rules, fewer arguments, simpler patterns, smaller ids and numbers.

use super::{lower, narrow, parts, Value};
use crate::trees::{all, replace, visit, Pattern, SheetTree};
use std::collections::BTreeSet;
use std::ops::Range;

/// A way to make a sheet simpler.
#[derive(Clone, Debug)]
pub enum Step {
    /// Without these rules.
    Rules(Range<usize>),
    /// Without this argument.
    Argument(usize),
    /// The parts of the compounds at this argument as arguments.
    Lift(usize),
    /// Another pattern in the stead of one, which is counted from the rule's first.
    Pattern { rule: usize, at: usize, new: Pattern },
    /// Another number for a variable.
    Variable { rule: usize, from: u8, to: u8 },
}

/// Simpler ranges or series: one number, from 0, both ends lower by as much, or one end lower.
pub fn ranges(low: u16, high: u16) -> impl Iterator<Item = (u16, u16)> {
    let alike = lower(low).map(move |less| (less, high.saturating_sub(low - less)));
    let first = [(0, 0), (low, low), (0, high)].into_iter().chain(alike);
    first.chain(lower(low).map(move |low| (low, high))).chain(lower(high).map(move |high| (low, high)))
}

/// Simpler patterns in the stead of one.
fn simpler(pattern: &Pattern) -> Vec<Pattern> {
    let mut new = vec![Pattern::Anything];
    match pattern {
        Pattern::Anything => new.clear(),
        Pattern::Symbol(id) => new.extend(lower(*id).map(Pattern::Symbol)),
        Pattern::Range(low, high) => {
            new.push(Pattern::Symbol(0));
            new.extend(ranges(*low, *high).map(|(low, high)| Pattern::Range(low, high)));
        }
        Pattern::Gauged(gauge, low, high) => {
            new.extend([Pattern::Symbol(0), Pattern::Range(*low, *high)]);
            new.extend(lower((*gauge).into()).map(|gauge| Pattern::Gauged(gauge as u8, *low, *high)));
            new.extend(ranges(*low, *high).map(|(low, high)| Pattern::Gauged(*gauge, low, high)));
        }
        Pattern::Series(low, high) => {
            new.extend([0, *low, *high].map(Pattern::Symbol));
            new.extend(ranges(*low, *high).map(|(low, high)| Pattern::Series(low, high)));
        }
        Pattern::Compound(id, arguments) => {
            new.push(Pattern::Symbol(*id));
            new.extend(arguments.iter().cloned());
            new.extend(parts(arguments.len()).map(|part| {
                let mut fewer = arguments.clone();
                fewer.drain(part);
                Pattern::Compound(*id, fewer)
            }));
            new.extend(lower(*id).map(|id| Pattern::Compound(id, arguments.clone())));
        }
        Pattern::Variable(_) => {}
        Pattern::Ranged(number, low, high) => {
            new.extend([Pattern::Variable(*number), Pattern::Range(*low, *high)]);
            let ranged = |(low, high)| Pattern::Ranged(*number, low, high);
            new.extend(ranges(*low, *high).map(ranged));
        }
    }
    new
}

/// The steps within one rule.
fn of_rule(rule: usize, patterns: &[Pattern]) -> impl Iterator<Item = Step> {
    let all = all(patterns);
    let number = |pattern: &&Pattern| match pattern {
        Pattern::Variable(number) | Pattern::Ranged(number, ..) => Some(*number),
        _ => None,
    };
    let numbers: BTreeSet<u8> = all.iter().filter_map(number).collect();
    let lower = |from: u8| lower(u16::from(from)).map(move |to| (from, to as u8));
    let variables =
        numbers.into_iter().flat_map(lower).map(move |(from, to)| Step::Variable { rule, from, to });
    let simpler = |(at, pattern): (usize, &Pattern)| {
        simpler(pattern).into_iter().map(move |new| Step::Pattern { rule, at, new })
    };
    let simpler: Vec<Step> = all.into_iter().enumerate().flat_map(simpler).collect();
    simpler.into_iter().chain(variables)
}

/// All steps to try, those that leave out most first.
pub fn steps(sheet: &SheetTree) -> impl Iterator<Item = Step> + '_ {
    let rules = parts(sheet.rules.len()).map(Step::Rules);
    let arguments = (0..usize::from(sheet.arity)).rev().map(Step::Argument);
    let patterns = sheet.rules.iter().enumerate().flat_map(|(rule, patterns)| of_rule(rule, patterns));
    let lifted = (0..usize::from(sheet.arity)).map(Step::Lift);
    rules.chain(arguments).chain(lifted).chain(patterns)
}

/// How many parts the compounds at this argument have, if every rule has one there or takes anything, and
/// they have equally many.
pub fn liftable(sheet: &SheetTree, at: usize) -> Option<usize> {
    let mut count = None;
    for rule in &sheet.rules {
        match rule.get(at)? {
            Pattern::Compound(_, parts) if count.is_none_or(|known| known == parts.len()) => {
                count = Some(parts.len());
            }
            Pattern::Anything => {}
            _ => return None,
        }
    }
    count.filter(|count| usize::from(sheet.arity) + count <= 9)
}

/// Puts the parts of the compounds at this argument in their stead.
fn lift(sheet: &mut SheetTree, at: usize) -> Option<()> {
    let count = liftable(sheet, at)?;
    for rule in &mut sheet.rules {
        let parts = match rule.remove(at) {
            Pattern::Compound(_, parts) => parts,
            _ => vec![Pattern::Anything; count],
        };
        rule.splice(at..at, parts);
    }
    sheet.arity = sheet.arity.checked_sub(1)? + count as u8;
    Some(())
}

/// The sheet after a step, if it can be made.
pub fn after(sheet: &SheetTree, step: &Step) -> Option<SheetTree> {
    let mut sheet = sheet.clone();
    match step {
        Step::Rules(part) => {
            sheet.rules.get(part.clone())?;
            sheet.rules.drain(part.clone());
        }
        Step::Argument(at) => {
            sheet.arity = sheet.arity.checked_sub(1)?;
            for rule in &mut sheet.rules {
                rule.get(*at)?;
                rule.remove(*at);
            }
        }
        Step::Lift(at) => lift(&mut sheet, *at)?,
        Step::Pattern { rule, at, new } => replace(sheet.rules.get_mut(*rule)?, *at, new),
        Step::Variable { rule, from, to } => visit(sheet.rules.get_mut(*rule)?, &mut |pattern| {
            if let Pattern::Variable(number) | Pattern::Ranged(number, ..) = pattern {
                if number == from {
                    *number = *to;
                }
            }
        }),
    }
    Some(sheet)
}

/// Does the same to each id, ends of series among them, to each end of a range, or to each gauge.
pub fn each(sheet: &mut SheetTree, which: Value, change: &mut dyn FnMut(&mut u16)) {
    for rule in &mut sheet.rules {
        visit(rule, &mut |pattern| match pattern {
            Pattern::Symbol(id) | Pattern::Compound(id, _) if which == Value::Id => change(id),
            Pattern::Series(low, high) if which == Value::Id => {
                change(low);
                change(high);
            }
            Pattern::Range(low, high) | Pattern::Ranged(_, low, high) | Pattern::Gauged(_, low, high)
                if which == Value::Number =>
            {
                change(low);
                change(high);
            }
            Pattern::Gauged(gauge, ..) if which == Value::Gauge => narrow(gauge, change),
            _ => {}
        });
    }
}
