//! Random sheets with close to 64 tests, spread over all depths, in up to as many rules as a sheet may have.

use crate::asked::Asked;
use crate::random::Random;
use crate::sheets::MOST_RULES;
use crate::stock::{GAUGES, IDS, NUMBERS, SERIES};
use crate::trees::{Pattern, SheetTree};

/// A full tree of compounds down to a depth, with nothing asked at its leaves.
fn skeleton(random: &mut Random, depth: usize) -> Pattern {
    if depth > random.between(1, 3) {
        return Pattern::Anything;
    }
    let arity = random.between(1, 4);
    Pattern::Compound(random.pick(&IDS), (0..arity).map(|_| skeleton(random, depth + 1)).collect())
}

/// The leaves at which nothing is asked yet.
fn open_leaves<'a>(patterns: &'a mut [Pattern], to: &mut Vec<&'a mut Pattern>) {
    for pattern in patterns {
        match pattern {
            Pattern::Anything => to.push(pattern),
            Pattern::Compound(_, arguments) => open_leaves(arguments, to),
            _ => {}
        }
    }
}

/// A pattern that adds tests where nothing was asked.
fn asking(random: &mut Random) -> Pattern {
    match random.below(9) {
        0 => Pattern::Variable(0),
        1 => Pattern::Variable(random.below(16) as u8),
        2 => Pattern::Ranged(15, 0, 0xffff),
        3 | 4 => Pattern::Range(random.pick(&NUMBERS[..3]), random.pick(&NUMBERS[3..])),
        5 => Pattern::Series(random.pick(&SERIES[..3]), random.pick(&SERIES[3..])),
        6 => {
            let (low, high) = (random.pick(&NUMBERS[..3]), random.pick(&NUMBERS[3..]));
            Pattern::Gauged(random.pick(&GAUGES), low, high)
        }
        _ => Pattern::Symbol(random.pick(&IDS)),
    }
}

/// The rule with other symbols, gauges and ends of ranges and series at the same places, and some tests taken out.
fn variant(random: &mut Random, rule: &[Pattern]) -> Vec<Pattern> {
    rule.iter()
        .map(|pattern| match pattern {
            Pattern::Symbol(_) if random.percent(50) => Pattern::Symbol(random.pick(&IDS)),
            Pattern::Range(low, _) if random.percent(30) => Pattern::Range(*low, *low),
            Pattern::Series(low, _) if random.percent(30) => Pattern::Series(*low, random.pick(&SERIES[3..])),
            Pattern::Gauged(_, low, high) if random.percent(50) => {
                Pattern::Gauged(random.pick(&GAUGES), *low, *high)
            }
            Pattern::Symbol(_) | Pattern::Series(..) | Pattern::Range(..) | Pattern::Gauged(..)
                if random.percent(10) =>
            {
                Pattern::Anything
            }
            Pattern::Compound(id, arguments) if random.percent(80) => {
                Pattern::Compound(*id, variant(random, arguments))
            }
            other => other.clone(),
        })
        .collect()
}

/// How many rules: 2 of 7 times more than 32.
fn rule_count(random: &mut Random) -> usize {
    let many = random.between(33, MOST_RULES.into());
    random.pick(&[1, 2, 3, 8, 32, many, MOST_RULES.into()])
}

/// A sheet whose first rule alone has close to 64 tests, some fewer or some more.
pub fn crowded(random: &mut Random) -> SheetTree {
    let arity = random.between(4, 8);
    let mut first: Vec<Pattern> = (0..arity).map(|_| skeleton(random, 1)).collect();
    let wanted = random.pick(&[60, 62, 63, 64, 64, 64]);
    loop {
        let sheet = SheetTree { arity: arity as u8, rules: vec![first.clone()] };
        let mut open = Vec::new();
        open_leaves(&mut first, &mut open);
        if Asked::of(&sheet).count() >= wanted || open.is_empty() {
            break;
        }
        let at = random.below(open.len());
        *open[at] = asking(random);
    }
    let mut rules = vec![first];
    for _ in 1..rule_count(random) {
        rules.push(variant(random, &rules[0]));
    }
    SheetTree { arity: arity as u8, rules }
}
