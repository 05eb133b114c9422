//! What a node stands for: its live rules and its pending tests. Sets are words, item i being bit i.

use super::cases::Cases;
use super::places::{depth, last_below};
use super::sheet::{Sheet, Tests};

/// Live rules and pending tests.
#[derive(Clone, Copy, Debug, PartialEq, Eq)]
pub struct Key {
    pub live: u64,
    pub pending: u64,
}

/// What a node is. All fail nodes are one, all suspend nodes are one, and so are all execute nodes
/// of a rule, so a leaf has no key.
#[derive(Clone, Copy, Debug, PartialEq, Eq)]
pub enum Kind {
    Fail,
    Execute(u8),
    Suspend,
    Ask(Key),
}

/// The sheet's tests by number, seen from the rules.
pub struct Asking<'a> {
    /// The rules that have each test.
    pub having: Vec<u64>,
    /// The place tests, which come first.
    pub places: Vec<PlaceTest>,
    /// The equality tests, which follow.
    pub pairs: &'a [(u16, u16)],
    /// All tests in the order in which they are asked.
    order: Vec<usize>,
}

/// A place test: its place, what an unknown there settles, and the cases if all rules are live.
pub struct PlaceTest {
    pub place: u16,
    pub settled: u64,
    pub cases: Cases,
}

/// The set of all members below this one.
fn below(end: usize) -> u64 {
    (0..end).fold(0, |set, member| set | 1 << member)
}

/// The members of a set, ascending.
pub fn members(mut set: u64) -> impl Iterator<Item = usize> {
    std::iter::from_fn(move || {
        let lowest = set.trailing_zeros() as usize;
        set &= set.wrapping_sub(1);
        (lowest < 64).then_some(lowest)
    })
}

impl Tests {
    /// The number of the place test at this place.
    pub fn place(&self, place: u16) -> Option<usize> {
        self.places.binary_search(&place).ok()
    }

    /// The number of the equality test of this pair.
    pub fn pair(&self, pair: (u16, u16)) -> Option<usize> {
        self.pairs.binary_search(&pair).ok().map(|at| self.places.len() + at)
    }

    /// The tests that an unknown at this place settles: those of places at or below it, and no pair.
    fn settled_by_unknown(&self, place: u16) -> u64 {
        let below = place..=last_below(place, depth(place));
        let settled = self.places.iter().map(|p| below.contains(p));
        settled.enumerate().fold(0, |set, (test, settled)| set | u64::from(settled) << test)
    }
}

impl<'a> Asking<'a> {
    /// The tests of a sheet, to be asked in this order.
    pub fn new(sheet: &'a Sheet, order: Vec<usize>) -> Self {
        let tests = &sheet.tests;
        let mut having = vec![0; tests.count()];
        let mut places = Vec::with_capacity(tests.places.len());
        let mut left: Vec<_> = sheet.rules.iter().map(|rule| rule.wants.iter().peekable()).collect();
        let mut wants = Vec::with_capacity(sheet.rules.len());
        for (test, &place) in tests.places.iter().enumerate() {
            wants.clear();
            for (rule, left) in left.iter_mut().enumerate() {
                if let Some((_, want)) = left.next_if(|(at, _)| *at == place) {
                    wants.push((rule, *want));
                    having[test] |= 1 << rule;
                }
            }
            let settled = tests.settled_by_unknown(place);
            places.push(PlaceTest { place, settled, cases: Cases::new(&wants) });
        }
        for (number, rule) in sheet.rules.iter().enumerate() {
            for pair in &rule.pairs {
                having[tests.pair(*pair).expect("a pair of the sheet")] |= 1 << number;
            }
        }
        Asking { having, places, pairs: &tests.pairs, order }
    }

    /// The same with unknowns that settle the pairs with a place at or below theirs, too, as before request 6.
    pub fn settling_pairs(mut self) -> Self {
        let first = self.places.len();
        for test in &mut self.places {
            let below = test.place..=last_below(test.place, depth(test.place));
            for (pair, (p, q)) in self.pairs.iter().enumerate() {
                let settled = below.contains(p) || below.contains(q);
                test.settled |= u64::from(settled) << (first + pair);
            }
        }
        self
    }

    /// The pending test that is asked first.
    pub fn first(&self, pending: u64) -> usize {
        let first = self.order.iter().find(|test| pending >> **test & 1 == 1);
        *first.expect("a pending test is one of the order")
    }

    /// The root, with all of these rules live and all tests pending.
    pub fn root(&self, rules: usize) -> Kind {
        self.kind(below(rules), below(self.having.len()))
    }

    /// What the node is that has these live rules, and of their tests those in this set pending. A live
    /// rule that is not waiting has no pending test.
    pub fn kind(&self, live: u64, unsettled: u64) -> Kind {
        match live.count_ones() {
            0 => return Kind::Fail,
            1 => return Kind::Execute(live.trailing_zeros() as u8 + 1),
            _ => {}
        }
        let (mut pending, mut waiting) = (0, 0);
        for test in members(unsettled) {
            let rules = self.having[test] & live;
            waiting |= rules;
            pending |= u64::from(rules != 0) << test;
        }
        match (live & !waiting).count_ones() {
            0 | 1 => Kind::Ask(Key { live, pending }),
            _ => Kind::Suspend,
        }
    }
}
