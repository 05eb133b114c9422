//! Sheets in disguise: other bytes with the same tests, rule for rule; and pieces: other bytes of the same terms. And near
//! misses: one thing changed, by which the tests may differ.

use crate::random::Random;
use crate::stock::{GAUGES, IDS};
use crate::trees::{all, replace, visit, Pattern, SheetTree, Term};
use crate::variables::{variables, Variable};
use std::collections::BTreeMap;

/// A range as a record has it, if it has one.
type Range = Option<(u16, u16)>;

/// The numbers of variables in a random order.
fn shuffled(random: &mut Random) -> Vec<u8> {
    let mut numbers: Vec<u8> = (0..16).collect();
    for at in (1..numbers.len()).rev() {
        numbers.swap(at, random.below(at + 1));
    }
    numbers
}

/// A low end that leaves this one in the common part.
fn at_most(random: &mut Random, low: u16) -> u16 {
    match random.below(3) {
        0 => low,
        1 => 0,
        _ => random.below(usize::from(low) + 1) as u16,
    }
}

/// A high end that leaves this one in the common part.
fn at_least(random: &mut Random, high: u16) -> u16 {
    u16::MAX - at_most(random, u16::MAX - high)
}

/// Ranges for so many records, some of which have none, with this common part.
fn spread(random: &mut Random, Variable { places, range }: Variable) -> Vec<Range> {
    let Some((low, high)) = range else { return vec![None; places] };
    let mut ranges = vec![None; places];
    for range in &mut ranges {
        if random.percent(50) {
            *range = Some((at_most(random, low), at_least(random, high)));
        }
    }
    let (lowest, highest) = (random.below(places), random.below(places));
    ranges[lowest].get_or_insert((low, at_least(random, high))).0 = low;
    ranges[highest].get_or_insert((at_most(random, low), high)).1 = high;
    ranges
}

/// What a variable becomes: its other number, and the ranges of its records in turn.
struct Mask {
    number: u8,
    ranges: std::vec::IntoIter<Range>,
}

/// The record of a variable.
fn variable(number: u8, range: Range) -> Pattern {
    match range {
        None => Pattern::Variable(number),
        Some((low, high)) => Pattern::Ranged(number, low, high),
    }
}

/// The record that takes anything, or a range.
fn nameless(range: Range) -> Pattern {
    match range {
        None => Pattern::Anything,
        Some((low, high)) => Pattern::Range(low, high),
    }
}

fn disguised(random: &mut Random, rule: &[Pattern]) -> Vec<Pattern> {
    let known = variables(rule);
    let mut free = shuffled(random).into_iter();
    let mut masks = BTreeMap::new();
    for (number, variable) in &known {
        let ranges = spread(random, *variable).into_iter();
        masks.insert(*number, Mask { number: free.next().expect("at most 16 variables"), ranges });
    }
    let mut rule = rule.to_vec();
    visit(&mut rule, &mut |pattern| match pattern {
        Pattern::Variable(number) | Pattern::Ranged(number, ..) => {
            let (Variable { places, range }, mask) =
                (known[number], masks.get_mut(number).expect("a variable of the rule"));
            *pattern = match places {
                1 if random.percent(40) => nameless(range),
                1 => variable(mask.number, range),
                _ => variable(mask.number, mask.ranges.next().expect("a range for each record")),
            };
        }
        Pattern::Anything if random.percent(30) => {
            *pattern = free.next().map_or(Pattern::Anything, Pattern::Variable);
        }
        Pattern::Range(low, high) if random.percent(30) => {
            let range = Some((*low, *high));
            *pattern = free.next().map_or(nameless(range), |number| variable(number, range));
        }
        Pattern::Range(low, high) if random.percent(40) => *pattern = Pattern::Gauged(0, *low, *high),
        Pattern::Gauged(0, low, high) if random.percent(40) => *pattern = Pattern::Range(*low, *high),
        Pattern::Symbol(id) if random.percent(40) => *pattern = Pattern::Series(*id, *id),
        Pattern::Series(low, high) if low == high && random.percent(40) => *pattern = Pattern::Symbol(*low),
        _ => {}
    });
    rule
}

/// The sheet as another office may write it: its variables with other numbers; where one stands once, anything
/// or its range instead, or the other way round; the range of a repeated one at some of its places only, and
/// wider at some, with the same common part; a symbol as the series of that one, and a range on gauge 0 by its name, or
/// the other way round.
///
/// # Panics
/// If a rule has more than 16 variables.
pub fn disguise(random: &mut Random, sheet: &SheetTree) -> SheetTree {
    let rules = sheet.rules.iter().map(|rule| disguised(random, rule)).collect();
    SheetTree { arity: sheet.arity, rules }
}

/// The piece as another machine may write it: a number on gauge 0 by its name, or the other way round.
pub fn disguise_piece(random: &mut Random, terms: &[Term]) -> Vec<Term> {
    let mut other = |term: &Term| match term {
        Term::Number(value) if random.percent(50) => Term::Gauged(0, *value),
        Term::Gauged(0, value) if random.percent(50) => Term::Number(*value),
        Term::Compound(id, arguments) => Term::Compound(*id, disguise_piece(random, arguments)),
        other => other.clone(),
    };
    terms.iter().map(&mut other).collect()
}

/// What a near miss changes.
#[derive(Clone, Copy, Debug, PartialEq, Eq, PartialOrd, Ord)]
pub enum Change {
    /// What is wanted at a place.
    Want,
    /// An end of a range or of a series.
    End,
    /// An end of a variable's range, which may be wider than the common part.
    VariableEnd,
    /// Which variable stands at a place.
    Pair,
    /// The gauge of a range, which may be 0 by its name before or after.
    Gauge,
}

impl Change {
    pub const ALL: [Change; 5] =
        [Change::Want, Change::End, Change::VariableEnd, Change::Pair, Change::Gauge];

    /// A pattern with this change; none if this one has nothing to change.
    fn of(self, random: &mut Random, pattern: &Pattern) -> Option<Pattern> {
        let other = |random: &mut Random, id: u16| {
            let others: Vec<u16> = IDS.into_iter().filter(|other| *other != id).collect();
            random.pick(&others)
        };
        Some(match (self, pattern) {
            (Change::Want, Pattern::Symbol(id)) if random.percent(20) => Pattern::Range(*id, *id),
            (Change::Want, Pattern::Symbol(id)) => Pattern::Symbol(other(random, *id)),
            (Change::Want, Pattern::Range(low, _) | Pattern::Gauged(_, low, _)) => Pattern::Symbol(*low),
            (Change::Want, Pattern::Series(low, high)) if random.percent(50) => Pattern::Range(*low, *high),
            (Change::Want, Pattern::Series(low, _)) => Pattern::Symbol(*low),
            (Change::Want, Pattern::Compound(id, arguments)) => {
                Pattern::Compound(other(random, *id), arguments.clone())
            }
            (Change::End, Pattern::Range(low, high)) => nameless(Some(moved(random, *low, *high))),
            (Change::End, Pattern::Gauged(gauge, low, high)) => {
                let (low, high) = moved(random, *low, *high);
                Pattern::Gauged(*gauge, low, high)
            }
            (Change::End, Pattern::Symbol(id)) => series(moved(random, *id, *id)),
            (Change::End, Pattern::Series(low, high)) => series(moved(random, *low, *high)),
            (Change::VariableEnd, Pattern::Ranged(number, low, high)) => {
                variable(*number, Some(moved(random, *low, *high)))
            }
            (Change::Pair, Pattern::Variable(number)) => {
                Pattern::Variable(*number ^ random.between(1, 15) as u8)
            }
            (Change::Pair, Pattern::Ranged(number, low, high)) => {
                Pattern::Ranged(*number ^ random.between(1, 15) as u8, *low, *high)
            }
            (Change::Gauge, Pattern::Range(low, high) | Pattern::Gauged(_, low, high)) => {
                Pattern::Gauged(random.pick(&GAUGES), *low, *high)
            }
            _ => return None,
        })
    }
}

/// The record of a series.
fn series((low, high): (u16, u16)) -> Pattern {
    Pattern::Series(low, high)
}

/// The range or series with one end moved by one.
fn moved(random: &mut Random, low: u16, high: u16) -> (u16, u16) {
    let ends = [
        (low.checked_sub(1), Some(high)),
        (low.checked_add(1), Some(high)),
        (Some(low), high.checked_sub(1)),
        (Some(low), high.checked_add(1)),
    ];
    let in_order = |(low, high): (Option<u16>, Option<u16>)| low.zip(high).filter(|(low, high)| low <= high);
    let ends: Vec<(u16, u16)> = ends.into_iter().filter_map(in_order).collect();
    random.pick(&ends)
}

/// The sheet with one thing changed, at a place at random; none if it has nothing to change.
pub fn near_miss(random: &mut Random, sheet: &SheetTree, change: Change) -> Option<SheetTree> {
    let mut changed = Vec::new();
    for (rule, patterns) in sheet.rules.iter().enumerate() {
        for (at, pattern) in all(patterns).into_iter().enumerate() {
            changed.extend(change.of(random, pattern).map(|new| (rule, at, new)));
        }
    }
    if changed.is_empty() {
        return None;
    }
    let (rule, at, new) = changed.swap_remove(random.below(changed.len()));
    let mut sheet = sheet.clone();
    replace(&mut sheet.rules[rule], at, &new);
    Some(sheet)
}
