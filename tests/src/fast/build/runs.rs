//! The runs of the numbers on a gauge at a switch, of which each pair of first and last is a case.

use super::super::sheet::MOST_RULES;
use super::items::Item;
use super::sets::{Rules, Set};

/// The most runs on a gauge: one more than the ends of ranges, two for each rule.
const MOST: usize = 2 * MOST_RULES + 1;

/// All numbers on a gauge in runs that the same live rules accept, none included.
pub struct Runs<R> {
    pub gauge: u8,
    pub count: usize,
    /// The first number of each run, and one past the last number of the last run.
    pub starts: [u32; MOST + 1],
    /// The rules that accept each run.
    pub sets: [R; MOST],
}

/// One past the last number on a gauge.
const END: u32 = 0x1_0000;

impl<R: Rules> Runs<R> {
    pub fn none() -> Self {
        Runs { gauge: 0, count: 0, starts: [0; MOST + 1], sets: [R::NONE; MOST] }
    }

    #[inline(always)]
    fn put(&mut self, start: u32, rules: R) {
        self.starts[self.count] = start;
        self.sets[self.count] = rules;
        self.count += 1;
    }

    /// Cuts all numbers on the next gauge on which a live rule has a range, at those of these items, which are all
    /// numbers, where live rules begin and end; takes them out. Gives whether there is such a gauge.
    #[inline(always)]
    pub fn cut(&mut self, items: &[Item<R>], marked: &mut R::Items, live: R) -> bool {
        self.count = 0;
        // One past the last number on a gauge that was cut, where no range begins.
        while *marked != R::Items::NONE && items[1 + marked.lowest()].rules & live == R::NONE {
            *marked = marked.rest();
        }
        if *marked == R::Items::NONE {
            return false;
        }
        let first = items[1 + marked.lowest()].code;
        let base = first & !0xffff;
        self.gauge = (base >> 16) as u8;
        if first != base {
            self.put(0, R::NONE);
        }
        while *marked != R::Items::NONE {
            let Item { code, rules } = items[1 + marked.lowest()];
            if code - base >= END {
                break;
            }
            self.put(code - base, rules & live);
            *marked = marked.rest();
        }
        self.starts[self.count] = END;
        true
    }

    /// How many cases there are.
    #[inline(always)]
    pub fn cases(&self) -> usize {
        self.count * (self.count + 1) / 2
    }
}
