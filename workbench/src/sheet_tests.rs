//! The tests of an accepted sheet: what each rule wants where, which of its places are equal, and the
//! sheet's tests by number.

use crate::notation::{numbers, places, Form, Names, Pattern, Rule, Sheet};

/// A numbered test of a sheet.
#[derive(Clone, Copy, Debug, PartialEq, Eq, PartialOrd, Ord)]
pub enum Test {
    /// What stands at a place.
    Place(u16),
    /// Whether two places are equal.
    Pair(u16, u16),
}

/// What a rule wants at a place.
#[derive(Clone, Copy, Debug, PartialEq, Eq)]
pub enum Want {
    /// A symbol with an id from low to high.
    Symbols(u16, u16),
    Compound(u16, u8),
    /// A number of a gauge, from low to high.
    Numbers(u8, u16, u16),
}

/// The tests of a rule.
#[derive(Clone, Debug, Default)]
pub struct RuleTests {
    /// What it wants at places, ascending.
    pub wants: Vec<(u16, Want)>,
    /// Which places must be equal, ascending.
    pub pairs: Vec<(u16, u16)>,
}

/// The tests of a sheet.
#[derive(Clone, Debug)]
pub struct SheetTests {
    pub rules: Vec<RuleTests>,
    /// The sheet's tests by number: places ascending, then pairs ascending.
    pub tests: Vec<Test>,
}

impl Test {
    /// The test in words.
    pub fn words(&self) -> String {
        match self {
            Test::Place(place) => places::words(*place),
            Test::Pair(p, q) => places::pair_words(*p, *q),
        }
    }
}

impl Want {
    /// What is wanted, in words: "is silver", "in #10..#99", "in 180..190", "in 180..190@roller".
    pub fn words(&self, names: &Names) -> String {
        match self {
            Want::Symbols(low, high) if low == high => format!("is {}", names.show(*low)),
            Want::Symbols(low, high) => format!("in {}", names.series(*low, *high)),
            Want::Compound(id, arity) => format!("is {}/{arity}", names.show(*id)),
            Want::Numbers(gauge, low, high) => {
                let word = if low == high { "is" } else { "in" };
                format!("{word} {}", numbers(*gauge, *low, *high, names))
            }
        }
    }
}

/// A variable at a place, with its range if it has one.
struct Occurrence {
    variable: u8,
    place: u16,
    range: Option<(u16, u16)>,
}

/// Notes what patterns want, the patterns below one on this way.
fn note(patterns: &[Pattern], path: &mut Vec<u8>, tests: &mut RuleTests, variables: &mut Vec<Occurrence>) {
    for (at, pattern) in patterns.iter().enumerate() {
        path.push(at as u8 + 1);
        if let Some(place) = places::place(path) {
            match &pattern.form {
                Form::Anything => {}
                Form::Symbol(id) => tests.wants.push((place, Want::Symbols(*id, *id))),
                Form::Series(low, high) => tests.wants.push((place, Want::Symbols(*low, *high))),
                Form::Range(low, high) => tests.wants.push((place, Want::Numbers(0, *low, *high))),
                Form::Gauged(gauge, low, high) => {
                    tests.wants.push((place, Want::Numbers(*gauge, *low, *high)));
                }
                Form::Compound(id, arguments) => {
                    tests.wants.push((place, Want::Compound(*id, arguments.len() as u8)));
                    note(arguments, path, tests, variables);
                }
                Form::Variable(variable) => {
                    variables.push(Occurrence { variable: *variable, place, range: None });
                }
                Form::Ranged(variable, low, high) => {
                    variables.push(Occurrence { variable: *variable, place, range: Some((*low, *high)) });
                }
            }
        }
        path.pop();
    }
}

impl RuleTests {
    /// The tests of a rule.
    pub fn of(rule: &Rule) -> RuleTests {
        let mut tests = RuleTests::default();
        let mut variables = Vec::new();
        note(&rule.patterns, &mut Vec::new(), &mut tests, &mut variables);
        variables.sort_by_key(|occurrence| occurrence.variable);
        for places in variables.chunk_by(|a, b| a.variable == b.variable) {
            let ranges = places.iter().filter_map(|occurrence| occurrence.range);
            let common = ranges.reduce(|(low, high), (l, h)| (low.max(l), high.min(h)));
            for (at, first) in places.iter().enumerate() {
                tests.wants.extend(common.map(|(low, high)| (first.place, Want::Numbers(0, low, high))));
                tests.pairs.extend(places[at + 1..].iter().map(|second| (first.place, second.place)));
            }
        }
        tests.wants.sort_by_key(|(place, _)| *place);
        tests.pairs.sort_unstable();
        tests
    }

    /// What the rule wants at a place, if it has a test there.
    pub fn at(&self, place: u16) -> Option<Want> {
        self.wants.iter().find(|(known, _)| *known == place).map(|(_, want)| *want)
    }
}

impl SheetTests {
    /// The tests of an accepted sheet.
    pub fn of(sheet: &Sheet) -> SheetTests {
        let rules: Vec<RuleTests> = sheet.rules.iter().map(RuleTests::of).collect();
        let mut tests: Vec<Test> = Vec::new();
        for rule in &rules {
            tests.extend(rule.wants.iter().map(|(place, _)| Test::Place(*place)));
            tests.extend(rule.pairs.iter().map(|(p, q)| Test::Pair(*p, *q)));
        }
        tests.sort_unstable();
        tests.dedup();
        SheetTests { rules, tests }
    }

    /// A test's bit in a wait list: none for what is no test of the sheet.
    pub fn bit(&self, test: Test) -> u64 {
        self.tests.binary_search(&test).ok().and_then(|number| 1_u64.checked_shl(number as u32)).unwrap_or(0)
    }

    /// The tests of a wait list in words, ascending by number.
    pub fn waits(&self, wait: u64) -> Vec<String> {
        let listed = |test: &&Test| self.bit(**test) & wait != 0;
        self.tests.iter().filter(listed).map(Test::words).collect()
    }
}
