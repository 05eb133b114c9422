//! Random pieces, most of them close to a rule of a sheet, with unknowns, spans, numbers on gauges and readings that will
//! never come at random places.

use crate::random::Random;
use crate::stock::Stock;
use crate::trees::{Pattern, SheetTree, Term};

/// How a piece is made: chances out of a hundred, asked anew at each of its places, and what its
/// terms are made of.
struct Mood {
    missing: usize,
    stray: usize,
    stock: Stock,
}

/// A reading that is missing: unknown, or one that will never come.
fn missing(random: &mut Random, stock: &Stock) -> Term {
    match random.percent(stock.nevers) {
        true => Term::Never,
        false => Term::Unknown,
    }
}

/// A term that may stand at this depth.
pub fn term(random: &mut Random, stock: &Stock, depth: usize) -> Term {
    let id = random.pick(stock.ids);
    match random.below(10) {
        0..=1 => missing(random, stock),
        2..=4 => Term::Symbol(if random.percent(30) { random.pick(stock.series) } else { id }),
        5..=7 if random.percent(stock.spans) => {
            let (one, other) = (random.pick(stock.numbers), random.pick(stock.numbers));
            Term::Span(one.min(other), one.max(other))
        }
        5..=7 => {
            let value = random.pick(stock.numbers);
            on_a_gauge(random, stock, value)
        }
        _ if depth > stock.deepest_compound => Term::Symbol(id),
        _ => {
            let arity = random.between(1, stock.most_arguments);
            Term::Compound(id, (0..arity).map(|_| term(random, stock, depth + 1)).collect())
        }
    }
}

/// A number or an id from low to high, its ends likely.
fn between(random: &mut Random, low: u16, high: u16) -> u16 {
    match random.below(3) {
        0 => low,
        1 => high,
        _ => random.between(usize::from(low.min(high)), usize::from(low.max(high))) as u16,
    }
}

/// A symbol of a series, or now and then one just outside.
fn symbol(random: &mut Random, low: u16, high: u16) -> Term {
    Term::Symbol(match random.below(10) {
        0 => low.saturating_sub(1),
        1 => high.saturating_add(1),
        _ => between(random, low, high),
    })
}

/// This value on gauge 0, which may be named, or now and then on another one.
fn on_a_gauge(random: &mut Random, stock: &Stock, value: u16) -> Term {
    match random.percent(stock.gauged) {
        true if random.percent(40) => Term::Gauged(0, value),
        true => Term::Gauged(random.pick(stock.gauges), value),
        false => Term::Number(value),
    }
}

/// A number on a gauge from low to high, or now and then one just outside, on another gauge, or a span.
fn gauged(random: &mut Random, stock: &Stock, gauge: u8, (low, high): (u16, u16)) -> Term {
    match random.below(12) {
        0 => Term::Gauged(gauge, low.saturating_sub(1)),
        1 => Term::Gauged(gauge, high.saturating_add(1)),
        2 => number(random, stock, low, high),
        3 => Term::Gauged(random.pick(stock.gauges), between(random, low, high)),
        4..=7 if gauge == 0 => number(random, stock, low, high),
        _ if stock.gauged == 0 => number(random, stock, low, high),
        _ => Term::Gauged(gauge, between(random, low, high)),
    }
}

/// A number from low to high, or a span that is mostly inside, partly inside or just outside.
fn number(random: &mut Random, stock: &Stock, low: u16, high: u16) -> Term {
    let inside = between(random, low, high);
    if !random.percent(stock.spans) {
        return on_a_gauge(random, stock, inside);
    }
    let other = match random.below(8) {
        0 => low.saturating_sub(1),
        1 => high.saturating_add(1),
        2 => random.pick(stock.numbers),
        _ => between(random, low, high),
    };
    let inside = if random.percent(10) { other } else { inside };
    Term::Span(inside.min(other), inside.max(other))
}

impl Mood {
    fn random(random: &mut Random, stock: Stock) -> Mood {
        let stock = if random.percent(30) { stock.without_spans() } else { stock };
        let stock = match random.below(6) {
            0..=2 => stock.without_gauges(),
            3 if stock.gauged > 0 => stock.mostly_gauges(),
            _ => stock,
        };
        let stock = if random.percent(50) { stock.without_nevers() } else { stock };
        Mood { missing: random.pick(&[0, 5, 15, 40]), stray: random.pick(&[0, 0, 3, 10]), stock }
    }

    /// A missing reading or a stray in the term's stead, if chance has it.
    fn instead(&self, random: &mut Random, depth: usize) -> Option<Term> {
        if random.percent(self.missing) {
            return Some(missing(random, &self.stock));
        }
        random.percent(self.stray).then(|| term(random, &self.stock, depth))
    }

    /// The term with missing readings and strays put in, cut to what fits at this depth.
    fn spoil(&self, random: &mut Random, what: &Term, depth: usize) -> Term {
        if let Some(other) = self.instead(random, depth) {
            return other;
        }
        match what {
            Term::Compound(..) if depth > 3 && random.percent(99) => Term::Unknown,
            Term::Compound(id, arguments) => Term::Compound(
                *id,
                arguments.iter().map(|argument| self.spoil(random, argument, depth + 1)).collect(),
            ),
            Term::Number(value) if random.percent(self.stock.spans) => {
                number(random, &self.stock, value.saturating_sub(2), value.saturating_add(2))
            }
            Term::Number(value) | Term::Gauged(_, value) if random.percent(30) => {
                on_a_gauge(random, &self.stock, *value)
            }
            Term::Span(low, high) if random.percent(50) => number(random, &self.stock, *low, *high),
            other => other.clone(),
        }
    }

    /// A term that a pattern takes, with missing readings and strays put in. A variable met before has
    /// the term that it had then.
    fn instance(
        &self,
        random: &mut Random,
        pattern: &Pattern,
        depth: usize,
        bound: &mut [Option<Term>],
    ) -> Term {
        if let Some(other) = self.instead(random, depth) {
            return other;
        }
        match pattern {
            Pattern::Anything => term(random, &self.stock, depth),
            Pattern::Symbol(id) => Term::Symbol(*id),
            Pattern::Series(low, high) => symbol(random, *low, *high),
            Pattern::Range(low, high) => number(random, &self.stock, *low, *high),
            Pattern::Gauged(gauge, low, high) => gauged(random, &self.stock, *gauge, (*low, *high)),
            Pattern::Compound(id, arguments) => {
                let parts = arguments.iter().map(|part| self.instance(random, part, depth + 1, bound));
                Term::Compound(*id, parts.collect())
            }
            Pattern::Variable(n) => {
                let known = bound[usize::from(*n) % 16]
                    .get_or_insert_with(|| term(random, &self.stock, depth))
                    .clone();
                self.spoil(random, &known, depth)
            }
            Pattern::Ranged(n, low, high) => {
                let known = bound[usize::from(*n) % 16]
                    .get_or_insert_with(|| number(random, &self.stock, *low, *high))
                    .clone();
                match known {
                    Term::Span(low, high) if random.percent(30) => number(random, &self.stock, low, high),
                    known => known,
                }
            }
        }
    }
}

/// The terms of a piece for this sheet: most are made from one of its rules. Now and then the
/// arity is another than the sheet's. With the full stock about half of all pieces have no span, and most no number that
/// names its gauge and no reading that will never come.
pub fn piece(random: &mut Random, sheet: &SheetTree, stock: Stock) -> Vec<Term> {
    let mood = Mood::random(random, stock);
    let mut terms: Vec<Term> = if sheet.rules.is_empty() || random.percent(10) {
        (0..sheet.arity).map(|_| term(random, &mood.stock, 1)).collect()
    } else {
        let rule = &sheet.rules[random.below(sheet.rules.len())];
        let mut bound = vec![None; 16];
        rule.iter().map(|pattern| mood.instance(random, pattern, 1, &mut bound)).collect()
    };
    if random.percent(3) {
        terms.resize(random.between(1, 8), Term::Unknown);
    }
    terms
}

/// The terms with more filled in: an unknown, or a span, so many times out of a hundred each, is made a term, also one
/// that will never come, or a narrower span or a number of it.
pub fn further(random: &mut Random, terms: &[Term], depth: usize, chance: usize) -> Vec<Term> {
    let fill = |random: &mut Random, known: &Term| match known {
        Term::Unknown if random.percent(chance) && random.percent(15) => Term::Never,
        Term::Unknown if random.percent(chance) => term(random, &Stock::FULL, depth),
        Term::Span(low, high) if random.percent(chance) => narrower(random, *low, *high),
        Term::Compound(id, arguments) => Term::Compound(*id, further(random, arguments, depth + 1, chance)),
        other => other.clone(),
    };
    terms.iter().map(|known| fill(random, known)).collect()
}

/// A number of a span, or a part of it.
fn narrower(random: &mut Random, low: u16, high: u16) -> Term {
    let (one, other) = (between(random, low, high), between(random, low, high));
    match random.below(20) {
        0 | 1 => Term::Gauged(0, one),
        2..=6 => Term::Number(one),
        _ => Term::Span(one.min(other), one.max(other)),
    }
}
