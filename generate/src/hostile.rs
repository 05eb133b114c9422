//! Hostile sheets and pieces: whole records that break one limit of document 01, or stand just at it.

use crate::random::Random;
use crate::sheets::MOST_RULES;
use crate::stock::GAUGES;
use crate::trees::{piece_bytes, Pattern, SheetTree, Term};

/// Puts a pattern at some place of a rule.
fn put(random: &mut Random, patterns: &mut [Pattern], depth: usize, new: Pattern) {
    if patterns.is_empty() {
        return;
    }
    let at = random.below(patterns.len());
    let deeper = depth < 4 && random.percent(60);
    match &mut patterns[at] {
        Pattern::Compound(_, arguments) if deeper && !arguments.is_empty() => {
            put(random, arguments, depth + 1, new);
        }
        pattern => *pattern = new,
    }
}

/// Compounds inside each other, so many.
fn nested_pattern(random: &mut Random, levels: usize) -> Pattern {
    match levels {
        0 => Pattern::Anything,
        _ => Pattern::Compound(random.byte().into(), vec![nested_pattern(random, levels - 1)]),
    }
}

/// Ends at or over a limit: from one to another below it, to itself, or over all.
const ENDS: [(u16, u16); 5] = [(2, 1), (0x0100, 0x00ff), (0xffff, 0), (5, 5), (0, 0xffff)];

/// A pattern at or over a limit.
fn hostile_pattern(random: &mut Random) -> Pattern {
    let (arity, levels) = (random.pick(&[0, 4, 5, 255]), random.between(3, 5));
    let (low, high) = random.pick(&ENDS);
    match random.below(10) {
        0 | 1 => Pattern::Compound(1, vec![Pattern::Anything; arity]),
        2..=4 => nested_pattern(random, levels),
        5 => Pattern::Range(2, 1),
        6 => Pattern::Ranged(0, 0x0100, 0x00ff),
        7 => Pattern::Series(low, high),
        8 => Pattern::Gauged(random.pick(&GAUGES), low, high),
        9 if random.percent(50) => Pattern::Variable(random.pick(&[15, 16, 255])),
        _ => Pattern::Ranged(random.pick(&[15, 16, 255]), 0, 0xffff),
    }
}

/// Puts a variable at two arguments of a rule, with ranges that have no number, or one, in common.
fn apart(random: &mut Random, rule: &mut [Pattern]) {
    let middle = random.pick(&[1, 4, 0x0100, 0xfffe]);
    let low = middle + u16::from(random.percent(60));
    let two = [Pattern::Ranged(3, 0, middle), Pattern::Ranged(3, low, 0xffff)];
    match rule {
        [only] => *only = Pattern::Compound(1, two.to_vec()),
        [first, .., last] => [*first, *last] = two,
        [] => {}
    }
}

/// The sheet's bytes with one limit broken, or just kept.
pub fn hostile_sheet(random: &mut Random, sheet: &SheetTree) -> Vec<u8> {
    let mut sheet = sheet.clone();
    let rule = random.below(sheet.rules.len().max(1));
    match (random.below(8), sheet.rules.get_mut(rule)) {
        (0, _) => {
            let arity = random.pick(&[0, 9, 255]);
            sheet.arity = arity;
            sheet.rules.iter_mut().for_each(|rule| rule.resize(usize::from(arity), Pattern::Anything));
        }
        (1, _) => {
            let count = random.pick(&[MOST_RULES, MOST_RULES + 1, MOST_RULES + 2, 255]);
            sheet.rules.resize(usize::from(count), vec![Pattern::Anything; usize::from(sheet.arity)]);
        }
        (2 | 3, Some(rule)) => apart(random, rule),
        (_, Some(rule)) => {
            let new = hostile_pattern(random);
            put(random, rule, 1, new);
        }
        (_, None) => sheet.arity = random.pick(&[0, 9, 255]),
    }
    sheet.bytes()
}

/// Readings that are missing.
const MISSING: [&Term; 2] = [&Term::Unknown, &Term::Never];

/// Compounds inside each other, so many, with a missing reading in the last.
fn nested_term(random: &mut Random, levels: usize) -> Term {
    match levels {
        0 => random.pick(&MISSING).clone(),
        _ => Term::Compound(random.byte().into(), vec![nested_term(random, levels - 1)]),
    }
}

/// A span at or over a limit, or a number at the limit of a gauge.
fn hostile_number(random: &mut Random) -> Term {
    let (low, high) = random.pick(&ENDS);
    let number = match random.percent(80) {
        true => Term::Span(low, high),
        false => Term::Gauged(random.pick(&[0, 255]), high),
    };
    match random.percent(30) {
        true => Term::Compound(3, vec![Term::Unknown, number]),
        false => number,
    }
}

/// The piece's bytes with one limit broken, or just kept.
pub fn hostile_piece(random: &mut Random, terms: &[Term]) -> Vec<u8> {
    let mut terms = terms.to_vec();
    let (at, levels) = (random.below(terms.len().max(1)), random.between(3, 5));
    match (random.below(4), terms.get_mut(at)) {
        (1, Some(term)) => {
            let part = random.pick(&MISSING);
            *term = Term::Compound(2, vec![part.clone(); random.pick(&[0, 4, 5, 255])]);
        }
        (2, Some(term)) => *term = nested_term(random, levels),
        (3, Some(term)) => *term = hostile_number(random),
        _ => terms.resize(random.pick(&[0, 9, 255]), random.pick(&MISSING).clone()),
    }
    piece_bytes(&terms)
}
