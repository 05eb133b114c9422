//! A sheet's questions, 1 to 11, and its tests: the tested places and the pairs.

use super::pairs::{self, pair, Pairs};
use super::places::{self, PlaceSet, STEP, WORDS};
use super::records::{self, Pattern};
use super::variables::{Variables, MOST_PLACES};
use crate::results::Refusal;

/// The most rules that a sheet may have.
pub const MOST_RULES: usize = 64;

/// The first byte of each rule.
pub type RuleStarts = [u32; MOST_RULES];

/// A sheet: its bytes, and what its questions noted of them.
pub struct Sheet<'a> {
    pub bytes: &'a [u8],
    pub arity: u8,
    pub rules: u8,
    /// How many place tests there are; pairs are numbered after them.
    pub places: u8,
    pub pair_count: u8,
    pub tested: PlaceSet,
    /// How many tested places the words before each word of the set hold.
    before: [u8; WORDS],
    pub pairs: Pairs,
}

impl<'a> Sheet<'a> {
    #[inline(always)]
    pub fn unread(bytes: &'a [u8]) -> Self {
        Sheet {
            bytes,
            arity: 0,
            rules: 0,
            places: 0,
            pair_count: 0,
            tested: [0; WORDS],
            before: [0; WORDS],
            pairs: [0; pairs::ROOM],
        }
    }

    /// Asks the questions and notes the tests, and where each rule begins.
    pub fn read(&mut self, starts: &mut RuleStarts) -> Result<(), Refusal> {
        let bytes = self.bytes;
        if bytes.len() < 3 || bytes[0] != 0x10 {
            return Err(1);
        }
        let (arity, rules) = (usize::from(bytes[1]), usize::from(bytes[2]));
        if !(1..=8).contains(&arity) {
            return Err(2);
        }
        if rules > MOST_RULES {
            return Err(3);
        }
        let mut variables = Variables::none();
        let mut at = 3;
        let mut pair_count = 0;
        for start in &mut starts[..rules] {
            *start = at as u32;
            at += patterns(&bytes[at..], arity, 0, 1, &mut self.tested, &mut variables)?;
            if variables.met() != 0 {
                pair_count = rule_end(&mut self.tested, &mut variables, &mut self.pairs, pair_count)?;
            }
        }
        if at != bytes.len() {
            return Err(10);
        }
        let places = places::count(&self.tested, arity);
        if places + pair_count > 64 {
            return Err(11);
        }
        (self.arity, self.rules) = (bytes[1], bytes[2]);
        (self.places, self.pair_count) = (places as u8, pair_count as u8);
        Ok(())
    }

    /// Makes ready for `place_test`.
    pub fn number_places(&mut self) {
        let mut count = 0;
        for (before, word) in self.before.iter_mut().zip(&self.tested) {
            *before = count;
            count += word.count_ones() as u8;
        }
    }

    /// The number of the test at a tested place.
    #[inline(always)]
    pub fn place_test(&self, place: usize) -> u32 {
        let word = place >> 6;
        let lower = self.tested[word] & ((1 << (place & 63)) - 1);
        u32::from(self.before[word]) + lower.count_ones()
    }

    /// The number of the test of a pair.
    #[inline(always)]
    pub fn pair_test(&self, p: u16, q: u16) -> usize {
        let at = pairs::position(&self.pairs, usize::from(self.pair_count), pair(p, q));
        (usize::from(self.places) + at) & 63
    }
}

/// Reads a pattern; gives how many bytes it has.
fn pattern(
    bytes: &[u8],
    place: usize,
    depth: usize,
    tested: &mut PlaceSet,
    variables: &mut Variables,
) -> Result<usize, Refusal> {
    match records::pattern(bytes) {
        None => Err(4),
        Some(Pattern::Anything) => Ok(1),
        Some(Pattern::Symbol(_)) => {
            places::put(tested, place);
            Ok(3)
        }
        Some(Pattern::Range(low, high) | Pattern::Series(low, high)) => ended(low, high, place, tested, 5),
        Some(Pattern::Gauged(_, low, high)) => ended(low, high, place, tested, 6),
        Some(Pattern::Compound(_, arity)) => {
            if depth > 3 {
                return Err(5);
            }
            if !(1..=4).contains(&arity) {
                return Err(6);
            }
            places::put(tested, place);
            let used = patterns(&bytes[4..], usize::from(arity), place + 1, depth + 1, tested, variables)?;
            Ok(used + 4)
        }
        Some(Pattern::Variable(number)) => {
            if number > 15 {
                return Err(8);
            }
            variables.meet(number, place);
            Ok(2)
        }
        Some(Pattern::Ranged(number, low, high)) => ranged(number, low, high, place, variables),
    }
}

/// Reads a range or a series, which has so many bytes.
#[inline(always)]
fn ended(low: u16, high: u16, place: usize, tested: &mut PlaceSet, used: usize) -> Result<usize, Refusal> {
    if low > high {
        return Err(7);
    }
    places::put(tested, place);
    Ok(used)
}

#[inline(always)]
fn ranged(
    number: u8,
    low: u16,
    high: u16,
    place: usize,
    variables: &mut Variables,
) -> Result<usize, Refusal> {
    if low > high {
        return Err(7);
    }
    if number > 15 {
        return Err(8);
    }
    variables.meet_ranged(number, place, low, high);
    Ok(6)
}

/// Reads so many patterns side by side, the first at this place; gives how many bytes they have.
fn patterns(
    bytes: &[u8],
    count: usize,
    first: usize,
    depth: usize,
    tested: &mut PlaceSet,
    variables: &mut Variables,
) -> Result<usize, Refusal> {
    let mut at = 0;
    let mut place = first;
    for _ in 0..count {
        at += pattern(&bytes[at..], place, depth, tested, variables)?;
        place += STEP[depth - 1];
    }
    Ok(at)
}

/// Question 9, then the tests of the rule's variables; gives how many pairs there are then.
fn rule_end(
    tested: &mut PlaceSet,
    variables: &mut Variables,
    pairs: &mut Pairs,
    before: usize,
) -> Result<usize, Refusal> {
    let mut count = before;
    let mut left = variables.met();
    while left != 0 {
        let number = left.trailing_zeros() as usize;
        left &= left - 1;
        if variables.is_ranged(number) && variables.low(number) > variables.high(number) {
            return Err(9);
        }
        count = variable_end(tested, variables, number, pairs, count);
    }
    variables.clear();
    Ok(count)
}

/// The tests of one variable; gives how many pairs there are then.
fn variable_end(
    tested: &mut PlaceSet,
    variables: &Variables,
    number: usize,
    pairs: &mut Pairs,
    before: usize,
) -> usize {
    let places = variables.count(number);
    if places > MOST_PLACES {
        return pairs::ROOM;
    }
    let mut count = before;
    for i in 0..places {
        let p = variables.place(number, i);
        if variables.is_ranged(number) {
            places::put(tested, usize::from(p));
        }
        for j in i + 1..places {
            count = pairs::put(pairs, count, pair(p, variables.place(number, j)));
        }
    }
    count
}
