//! The sheet's tests, seen from the rules. Sets are words, member i being bit i.

use super::super::places::{step_of_children, PLACES};
use super::super::sheet::{Sheet, MOST_RULES};
use super::super::variables::Variables;
use super::items::{self, Item};
use super::keys::Key;
use super::sets::{Rules, Set};
use super::wants::Wants;

pub struct Tests<'a, R: Rules> {
    pub sheet: &'a Sheet<'a>,
    /// The place of each place test.
    pub places: [u16; 64],
    /// What an unknown settles at each place test.
    pub settled: [u64; 64],
    /// The rules that have each test.
    pub having: [R; 64],
    /// The tests of each rule.
    of_rule: [u64; MOST_RULES],
    /// The items of each place test, so many cells apart.
    items: &'a mut [Item<R>],
    room: usize,
    /// The items where each rule begins or ends, for each place test.
    marks: &'a mut [R::Items],
}

impl<'a, R: Rules> Tests<'a, R> {
    #[inline(always)]
    pub fn unread(sheet: &'a Sheet, items: &'a mut [Item<R>], marks: &'a mut [R::Items]) -> Self {
        Tests {
            sheet,
            places: [0; 64],
            settled: [0; 64],
            having: [R::NONE; 64],
            of_rule: [0; MOST_RULES],
            items,
            room: 2 * usize::from(sheet.rules) + 1,
            marks,
        }
    }

    /// Reads the accepted sheet once more.
    pub fn read(&mut self) {
        let mut numbers = [0; PLACES];
        self.number_places(&mut numbers);
        self.settle();
        self.read_rules(&numbers);
        self.run_items();
    }

    /// Lists the tested places, and the number of the test at each.
    fn number_places(&mut self, numbers: &mut [u8; PLACES]) {
        let mut count = 0;
        for (at, word) in self.sheet.tested.iter().enumerate() {
            let mut left = *word;
            while left != 0 {
                let place = at * 64 + left.trailing_zeros() as usize;
                self.places[count & 63] = place as u16;
                numbers[place] = count as u8;
                count += 1;
                left &= left - 1;
            }
        }
    }

    /// Notes what an unknown settles: the place and those below it.
    fn settle(&mut self) {
        let count = usize::from(self.sheet.places);
        for test in 0..count {
            let place = u32::from(self.places[test]);
            let end = place + 4 * step_of_children(place as usize) as u32 + 1;
            let mut settled = 0;
            let mut below = test;
            while below < count && u32::from(self.places[below]) < end {
                settled |= 1 << below;
                below += 1;
            }
            self.settled[test] = settled;
        }
    }

    /// Notes what each rule wants, and its pairs.
    fn read_rules(&mut self, numbers: &[u8; PLACES]) {
        let mut variables = Variables::none();
        let mut wants = Wants { numbers, items: self.items, room: self.room, rule: 0 };
        let mut at = 3;
        for rule in 0..usize::from(self.sheet.rules) {
            wants.rule = rule;
            let bytes = &self.sheet.bytes[at..];
            at += wants.patterns(bytes, usize::from(self.sheet.arity), 0, 1, &mut variables);
            let mut left = variables.met();
            let mut pairs = 0;
            while left != 0 {
                pairs |= wants.variable(&variables, left.trailing_zeros() as usize, self.sheet);
                left &= left - 1;
            }
            variables.clear();
            if pairs != 0 {
                pairs <<= self.sheet.places & 63;
                self.of_rule[rule] = pairs;
                while pairs != 0 {
                    self.having[pairs.lowest()] |= R::of(rule);
                    pairs = pairs.rest();
                }
            }
        }
    }

    /// Makes the items ready, and notes which rules have each place test.
    fn run_items(&mut self) {
        for test in 0..usize::from(self.sheet.places) {
            let items = &mut self.items[test * self.room..];
            let mut having = items::run(items, &mut self.marks[test * usize::from(self.sheet.rules)..]);
            self.having[test] = having;
            while having != R::NONE {
                self.of_rule[having.lowest()] |= 1 << test;
                having = having.rest();
            }
        }
    }

    /// The items of a place test.
    #[inline(always)]
    pub fn items(&self, test: usize) -> &[Item<R>] {
        &self.items[test * self.room..]
    }

    /// The items of a place test where one of these rules begins or ends.
    #[inline(always)]
    pub fn marked(&self, test: usize, rules: R) -> R::Items {
        items::marked(self.items(test), &self.marks[test * usize::from(self.sheet.rules)..], rules)
    }

    /// Rules that have a test in this set, as far as needed to cover the live ones.
    #[inline(always)]
    pub fn cover(&self, live: R, unsettled: u64) -> R {
        let mut cover = R::NONE;
        let mut left = unsettled;
        while left != 0 && live & !cover != R::NONE {
            cover |= self.having[left.lowest()];
            left = left.rest();
        }
        cover
    }

    /// The key of the node with these live rules, of whose tests those in this set are pending. The cover
    /// is that of a set of rules that holds these.
    #[inline(always)]
    pub fn key(&self, live: R, unsettled: u64, cover: R) -> Key<R> {
        if !live.has_two() {
            return Key { live, pending: 0 };
        }
        if (live & !cover).has_two() {
            return Key::SUSPEND;
        }
        let mut pending = 0;
        let mut left = live;
        while left != R::NONE && pending != unsettled {
            pending |= self.of_rule[left.lowest()] & unsettled;
            left = left.rest();
        }
        Key { live, pending }
    }
}
