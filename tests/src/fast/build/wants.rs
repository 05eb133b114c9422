//! What a rule of an accepted sheet wants, read from its bytes to the items of place tests.

use super::super::pairs::{self, pair};
use super::super::places::{PLACES, STEP};
use super::super::records::{self, on_gauge, Pattern};
use super::super::sheet::Sheet;
use super::super::variables::Variables;
use super::items::{self, Item};
use super::sets::Rules;

/// Where the wants of a rule are put.
pub struct Wants<'a, R> {
    /// The number of the test at each tested place.
    pub numbers: &'a [u8; PLACES],
    /// The items of each place test, so many cells apart.
    pub items: &'a mut [Item<R>],
    pub room: usize,
    pub rule: usize,
}

impl<R: Rules> Wants<'_, R> {
    #[inline(always)]
    fn want(&mut self, place: usize, code: u32) {
        let test = usize::from(self.numbers[place]);
        items::want(&mut self.items[test * self.room..], self.rule, code);
    }

    #[inline(always)]
    fn want_all(&mut self, place: usize, first: u32, last: u32) {
        let test = usize::from(self.numbers[place]);
        items::want_all(&mut self.items[test * self.room..], self.rule, first, last);
    }

    #[inline(always)]
    fn want_range(&mut self, place: usize, gauge: u8, low: u16, high: u16) {
        self.want_all(place, items::number(on_gauge(gauge, low)), items::number(on_gauge(gauge, high)));
    }

    /// Puts in what a pattern wants; gives how many bytes it has.
    fn pattern(&mut self, bytes: &[u8], place: usize, depth: usize, variables: &mut Variables) -> usize {
        match records::pattern(bytes) {
            None | Some(Pattern::Anything) => 1,
            Some(Pattern::Symbol(id)) => {
                self.want_all(place, items::symbol(id), items::symbol(id));
                3
            }
            Some(Pattern::Series(low, high)) => {
                self.want_all(place, items::symbol(low), items::symbol(high));
                5
            }
            Some(Pattern::Range(low, high)) => {
                self.want_range(place, 0, low, high);
                5
            }
            Some(Pattern::Gauged(gauge, low, high)) => {
                self.want_range(place, gauge, low, high);
                6
            }
            Some(Pattern::Compound(id, arity)) => {
                self.want(place, items::compound(id, arity));
                4 + self.patterns(&bytes[4..], usize::from(arity), place + 1, depth + 1, variables)
            }
            Some(Pattern::Variable(number)) => {
                variables.meet(number, place);
                2
            }
            Some(Pattern::Ranged(number, low, high)) => {
                variables.meet_ranged(number, place, low, high);
                6
            }
        }
    }

    /// Puts in what so many patterns side by side want, the first at this place.
    pub fn patterns(
        &mut self,
        bytes: &[u8],
        count: usize,
        first: usize,
        depth: usize,
        variables: &mut Variables,
    ) -> usize {
        let mut at = 0;
        let mut place = first;
        for _ in 0..count {
            at += self.pattern(&bytes[at..], place, depth, variables);
            place += STEP[depth - 1];
        }
        at
    }

    /// Puts in what a variable wants; gives the set of its pairs, the sheet's first pair being 0.
    pub fn variable(&mut self, variables: &Variables, number: usize, sheet: &Sheet) -> u64 {
        let count = variables.count(number);
        let mut pairs = 0;
        for i in 0..count {
            let p = variables.place(number, i);
            if variables.is_ranged(number) {
                self.want_range(usize::from(p), 0, variables.low(number), variables.high(number));
            }
            for j in i + 1..count {
                let pair = pair(p, variables.place(number, j));
                pairs |= 1 << (pairs::position(&sheet.pairs, usize::from(sheet.pair_count), pair) & 63);
            }
        }
        pairs
    }
}
