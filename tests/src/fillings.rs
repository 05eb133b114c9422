//! The plain answer by trying fillings, on small sheets: a check of the reference that uses no
//! places, no tests and no comparison of terms with unknowns or spans.
//!
//! A filling puts a number of a span in its place: each is tried, and no span has many here. A reading that will never
//! come stays as it is: no pattern but anything and a variable that stands once takes it. Document 01 fills
//! unknowns with any terms without unknowns. Here they come from a finite set: every symbol and number that
//! sheet or piece mention, each number on its gauge, all numbers of spans, the numbers beside those of ranges, the symbols
//! beside those of series and, as a series may take all symbols, a number, two symbols that neither mentions, and every
//! compound that they mention over these, up to a height. All numbers name their gauge here, so that those on gauge 0 are
//! spelled in one way. That is enough. If some filling meets a rule, so does one that puts
//! at each unknown no more than what the rule and the other places of its variables ask there: a pattern with terms
//! of the piece laid over each other where its variables stand. And if some filling misses it, so does one that puts
//! a new symbol or a number at an unknown, or the two new symbols at two of them.

use crate::generate::trees::{Pattern, SheetTree, Term};
use crate::results::{Plain, Word};
use std::collections::BTreeSet;

/// The terms with each number's gauge written.
fn named(terms: &[Term]) -> Vec<Term> {
    let name = |term: &Term| match term {
        Term::Number(value) => Term::Gauged(0, *value),
        Term::Compound(id, arguments) => Term::Compound(*id, named(arguments)),
        other => other.clone(),
    };
    terms.iter().map(name).collect()
}

/// Whether terms without unknowns meet a rule.
fn meets(rule: &[Pattern], terms: &[Term]) -> bool {
    takes_all(rule, terms, &mut [None; 16])
}

fn takes_all<'a>(patterns: &[Pattern], terms: &'a [Term], bound: &mut [Option<&'a Term>; 16]) -> bool {
    patterns.len() == terms.len()
        && patterns.iter().zip(terms).all(|(pattern, term)| takes(pattern, term, bound))
}

/// Whether a pattern takes a term, each variable taking the same term wherever it stands.
fn takes<'a>(pattern: &Pattern, term: &'a Term, bound: &mut [Option<&'a Term>; 16]) -> bool {
    match (pattern, term) {
        (Pattern::Anything, _) => true,
        (Pattern::Symbol(id), Term::Symbol(other)) => id == other,
        (Pattern::Series(low, high), Term::Symbol(id)) => (low..=high).contains(&id),
        (Pattern::Range(low, high), Term::Gauged(0, n)) => (low..=high).contains(&n),
        (Pattern::Gauged(gauge, low, high), Term::Gauged(on, n)) => on == gauge && (low..=high).contains(&n),
        (Pattern::Compound(id, patterns), Term::Compound(other, terms)) => {
            id == other && takes_all(patterns, terms, bound)
        }
        (Pattern::Variable(number), _) => binds(&mut bound[usize::from(*number)], term),
        (Pattern::Ranged(number, low, high), Term::Gauged(0, n)) => {
            (low..=high).contains(&n) && binds(&mut bound[usize::from(*number)], term)
        }
        _ => false,
    }
}

/// Whether a variable takes a term: it has none yet, or the same, with no reading in it that will never come.
fn binds<'a>(variable: &mut Option<&'a Term>, term: &'a Term) -> bool {
    match variable.replace(term) {
        None => true,
        Some(before) => before == term && !holds_never(term),
    }
}

/// Whether a term is or holds a reading that will never come.
pub fn holds_never(term: &Term) -> bool {
    match term {
        Term::Never => true,
        Term::Compound(_, arguments) => arguments.iter().any(holds_never),
        _ => false,
    }
}

/// The ends of a range or series, and those beside them.
fn around(low: u16, high: u16) -> [u16; 4] {
    [low.saturating_sub(1), low, high, high.saturating_add(1)]
}

/// What sheet and piece mention.
#[derive(Default)]
struct Mentioned {
    symbols: BTreeSet<u16>,
    /// Gauge and value of each.
    numbers: BTreeSet<(u8, u16)>,
    compounds: BTreeSet<(u16, usize)>,
    /// The height of the highest pattern.
    patterns: usize,
    /// How deep a variable stands in its pattern, 1 at the top.
    variables: usize,
    /// The height of the highest term.
    terms: usize,
}

impl Mentioned {
    fn pattern(&mut self, pattern: &Pattern, level: usize) {
        self.patterns = self.patterns.max(level);
        if let Pattern::Variable(_) | Pattern::Ranged(..) = pattern {
            self.variables = self.variables.max(level);
        }
        match pattern {
            Pattern::Anything | Pattern::Variable(_) => {}
            Pattern::Symbol(id) => self.symbols.extend([*id]),
            Pattern::Series(low, high) => {
                self.symbols.extend(around(*low, *high));
                self.numbers.extend([(0, 0)]);
            }
            Pattern::Range(low, high) | Pattern::Ranged(_, low, high) => {
                self.numbers.extend(around(*low, *high).map(|value| (0, value)));
            }
            Pattern::Gauged(gauge, low, high) => {
                self.numbers.extend(around(*low, *high).map(|value| (*gauge, value)));
            }
            Pattern::Compound(id, arguments) => {
                self.compounds.insert((*id, arguments.len()));
                arguments.iter().for_each(|argument| self.pattern(argument, level + 1));
            }
        }
    }

    fn term(&mut self, term: &Term, level: usize) {
        self.terms = self.terms.max(level);
        match term {
            Term::Unknown | Term::Never => {}
            Term::Symbol(id) => self.symbols.extend([*id]),
            Term::Number(n) => self.numbers.extend([(0, *n)]),
            Term::Gauged(gauge, n) => self.numbers.extend([(*gauge, *n)]),
            Term::Compound(id, arguments) => {
                self.compounds.insert((*id, arguments.len()));
                arguments.iter().for_each(|argument| self.term(argument, level + 1));
            }
            Term::Span(low, high) => self.numbers.extend((*low..=*high).map(|value| (0, value))),
        }
    }

    /// The height up to which terms are tried.
    fn height(&self) -> usize {
        self.patterns.max(self.variables.max(1) - 1 + self.terms)
    }

    /// All terms of this height or lower over what is mentioned and two new symbols; none if they
    /// are more than so many.
    fn terms(&self, most: usize) -> Option<Vec<Term>> {
        let new = (0..=u16::MAX).filter(|id| !self.symbols.contains(id)).take(2);
        let mut atoms: Vec<Term> = self.symbols.iter().copied().chain(new).map(Term::Symbol).collect();
        atoms.extend(self.numbers.iter().map(|(gauge, n)| Term::Gauged(*gauge, *n)));
        let mut all = atoms.clone();
        for _ in 1..self.height() {
            let mut higher = atoms.clone();
            for (id, arity) in &self.compounds {
                if higher.len() + all.len().checked_pow(*arity as u32)? > most {
                    return None;
                }
                let lists = lists(&all, *arity);
                higher.extend(lists.into_iter().map(|arguments| Term::Compound(*id, arguments)));
            }
            all = higher;
        }
        Some(all)
    }
}

/// All lists of this length over these terms.
fn lists(over: &[Term], length: usize) -> Vec<Vec<Term>> {
    (0..length).fold(vec![Vec::new()], |shorter, _| {
        let longer = |list: &Vec<Term>, last: &Term| [&list[..], std::slice::from_ref(last)].concat();
        shorter.iter().flat_map(|list| over.iter().map(move |last| longer(list, last))).collect()
    })
}

/// What may be put in each unknown and span in turn: all of these terms, or the numbers of the span.
fn choices(terms: &[Term], from: &[Term]) -> Vec<Vec<Term>> {
    terms
        .iter()
        .flat_map(|term| match term {
            Term::Unknown => vec![from.to_vec()],
            Term::Span(low, high) => vec![(*low..=*high).map(|value| Term::Gauged(0, value)).collect()],
            Term::Compound(_, arguments) => choices(arguments, from),
            _ => Vec::new(),
        })
        .collect()
}

/// The widest span of these terms has so many numbers more than one.
fn widest(terms: &[Term]) -> u16 {
    let width = |term: &Term| match term {
        Term::Span(low, high) => high.saturating_sub(*low),
        Term::Compound(_, arguments) => widest(arguments),
        _ => 0,
    };
    terms.iter().map(width).max().unwrap_or(0)
}

/// The terms with the next of these put in each unknown and span in turn.
fn filled<'a>(terms: &[Term], with: &mut impl Iterator<Item = &'a Term>) -> Vec<Term> {
    terms
        .iter()
        .map(|term| match term {
            Term::Unknown | Term::Span(..) => with.next().expect("a term for each").clone(),
            Term::Compound(id, arguments) => Term::Compound(*id, filled(arguments, with)),
            other => other.clone(),
        })
        .collect()
}

/// Which rules some filling meets, and which some filling misses.
struct Tried {
    met: Vec<bool>,
    missed: Vec<bool>,
}

impl Tried {
    fn all(sheet: &SheetTree, piece: &[Term], choices: &[Vec<Term>], count: usize) -> Tried {
        let rules = sheet.rules.len();
        let mut tried = Tried { met: vec![false; rules], missed: vec![false; rules] };
        for mut number in 0..count {
            let mut chosen = choices.iter().map(|from| {
                let term = &from[number % from.len()];
                number /= from.len();
                term
            });
            let terms = filled(piece, &mut chosen);
            for (at, rule) in sheet.rules.iter().enumerate() {
                let side = if meets(rule, &terms) { &mut tried.met } else { &mut tried.missed };
                side[at] = true;
            }
        }
        tried
    }

    /// Commit: this rule alone is met by some filling, and by all. Execute: this rule alone is met
    /// by some filling, and missed by some. Suspend: some filling meets one rule, and some filling
    /// another. Fail: no filling meets a rule.
    fn answer(&self) -> Plain {
        let met: Vec<usize> = (0..self.met.len()).filter(|at| self.met[*at]).collect();
        match met[..] {
            [] => Plain { word: Word::Fail, rule: 0 },
            [only] if self.missed[only] => Plain { word: Word::Execute, rule: only as u8 + 1 },
            [only] => Plain { word: Word::Commit, rule: only as u8 + 1 },
            _ => Plain { word: Word::Suspend, rule: 0 },
        }
    }
}

/// A span of more numbers than 6 is not filled in.
const WIDEST: u16 = 5;

/// The plain answer by trying fillings; none if there are more than so many to try, or a span is wide.
pub fn answer(sheet: &SheetTree, piece: &[Term], most: usize) -> Option<Plain> {
    if widest(piece) > WIDEST {
        return None;
    }
    let mut mentioned = Mentioned::default();
    sheet.rules.iter().flatten().for_each(|pattern| mentioned.pattern(pattern, 1));
    piece.iter().for_each(|term| mentioned.term(term, 1));
    let from = mentioned.terms(most)?;
    let choices = choices(piece, &from);
    let count = choices.iter().try_fold(1, |count: usize, from| count.checked_mul(from.len()))?;
    (count <= most).then(|| Tried::all(sheet, &named(piece), &choices, count).answer())
}
