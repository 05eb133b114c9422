//! Random sheets. Ids, numbers and variables are few, so that rules collide.

use crate::random::Random;
use crate::stock::Stock;
use crate::trees::{Pattern, SheetTree};

/// The most rules that a sheet may have.
pub const MOST_RULES: u8 = 64;

/// Numbers of variables, the lowest and the highest among them.
const VARIABLES: [u8; 4] = [0, 1, 7, 15];

/// How a sheet's patterns are chosen: the weights of the kinds 20 to 27, and what they are made of.
pub struct Style {
    weights: [usize; 8],
    variables: usize,
    stock: Stock,
}

impl Style {
    /// A style at random: from plain readings to deep compounds full of variables.
    pub fn random(random: &mut Random, stock: Stock) -> Style {
        Style {
            weights: random.pick(&[
                [3, 3, 4, 0, 0, 0, 2, 0],
                [3, 3, 4, 2, 2, 1, 2, 2],
                [2, 1, 1, 1, 4, 2, 1, 1],
                [2, 2, 2, 4, 2, 1, 1, 0],
                [4, 1, 3, 2, 1, 3, 0, 0],
                [8, 2, 1, 3, 3, 0, 1, 0],
                [2, 1, 0, 0, 1, 0, 8, 0],
                [3, 0, 2, 1, 1, 1, 0, 8],
            ]),
            variables: random.between(1, VARIABLES.len()),
            stock,
        }
    }

    /// A pattern that stands at this depth.
    pub fn pattern(&self, random: &mut Random, depth: usize) -> Pattern {
        let mut mark = random.below(self.weights.iter().sum());
        let kind = self.weights.iter().position(|weight| {
            let found = mark < *weight;
            mark = mark.saturating_sub(*weight);
            found
        });
        let id = random.pick(self.stock.ids);
        let number = random.pick(&VARIABLES[..self.variables]);
        match kind {
            Some(1) => Pattern::Symbol(id),
            Some(2) => {
                let (low, high) = ends(random, self.stock.numbers);
                Pattern::Range(low, high)
            }
            Some(3) if depth <= self.stock.deepest_compound => {
                let arity = random.between(1, self.stock.most_arguments);
                Pattern::Compound(id, (0..arity).map(|_| self.pattern(random, depth + 1)).collect())
            }
            Some(4) => Pattern::Variable(number),
            Some(5) => {
                let (low, high) = ends(random, self.stock.numbers);
                Pattern::Ranged(number, low, high)
            }
            Some(6) => {
                let (low, high) = ends(random, self.stock.series);
                Pattern::Series(low, high)
            }
            Some(7) => {
                let (low, high) = ends(random, self.stock.numbers);
                Pattern::Gauged(random.pick(self.stock.gauges), low, high)
            }
            _ => Pattern::Anything,
        }
    }

    /// Puts fresh patterns at some places of these, each so many times out of a hundred.
    fn change(&self, random: &mut Random, patterns: &mut [Pattern], depth: usize, chance: usize) {
        for pattern in patterns {
            if random.percent(chance) {
                *pattern = self.pattern(random, depth);
            } else if let Pattern::Compound(_, arguments) = pattern {
                self.change(random, arguments, depth + 1, chance);
            }
        }
    }
}

/// Two of these as low and high, now and then the other way round.
fn ends(random: &mut Random, of: &[u16]) -> (u16, u16) {
    let (a, b) = (random.pick(of), random.pick(of));
    match random.percent(1) {
        true => (a, b),
        false => (a.min(b), a.max(b)),
    }
}

/// How many rules: mostly few, 6 of 26 times more than 32, now and then as many as there may be.
fn rule_count(random: &mut Random) -> usize {
    match random.below(26) {
        0 => 0,
        1..=4 => 1,
        5..=9 => 2,
        10..=14 => random.between(3, 6),
        15..=17 => random.between(7, 16),
        18 => random.between(17, 31),
        19 => 32,
        20..=24 => random.between(33, MOST_RULES.into()),
        _ => MOST_RULES.into(),
    }
}

/// A rule at random: mostly an earlier one with some patterns changed.
fn rule(random: &mut Random, style: &Style, arity: usize, earlier: &[Vec<Pattern>]) -> Vec<Pattern> {
    if earlier.is_empty() || random.percent(25) {
        return (0..arity).map(|_| style.pattern(random, 1)).collect();
    }
    let mut rule = earlier[random.below(earlier.len())].clone();
    let chance = random.pick(&[0, 10, 40]);
    style.change(random, &mut rule, 1, chance);
    rule
}

/// A sheet at random with so many rules.
fn sheet_of(random: &mut Random, style: &Style, arity: usize, count: usize) -> SheetTree {
    let mut rules = Vec::new();
    for _ in 0..count {
        rules.push(rule(random, style, arity, &rules));
    }
    SheetTree { arity: arity as u8, rules }
}

/// A sheet at random.
pub fn sheet(random: &mut Random) -> SheetTree {
    let stock = Stock::random(random);
    let style = Style::random(random, stock);
    let (arity, count) = (random.between(1, 8), rule_count(random));
    sheet_of(random, &style, arity, count)
}

/// A sheet at random with up to 3 rules for up to 3 readings.
pub fn small_sheet(random: &mut Random, stock: Stock) -> SheetTree {
    let style = Style::random(random, stock);
    let (arity, count) = (random.between(1, 3), random.between(1, 3));
    sheet_of(random, &style, arity, count)
}
