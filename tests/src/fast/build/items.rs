//! The items of a place test: what its rules want there, in the order of a switch's cases.
//!
//! An item is a code and a set of rules. The code of a compound is its kind, id and arity, and the set holds the
//! rules that want it. The code of a number is its kind, gauge and value, so that one past the last number on a gauge is
//! the first on the next. The code of a symbol or a number says that series or ranges of rules begin or end there:
//! first the set holds those rules, then, once `run` has been over the items, the rules whose series or range holds
//! what comes from there to the next item. The code of cell 0 is how many items there are.

use super::sets::{Rules, Set};

/// Few items are looked at one by one.
const FEW: u32 = 5;

/// The kinds of codes, in the order of cases.
pub const SYMBOLS: u32 = 0;
pub const COMPOUND: u32 = 1;
pub const NUMBERS: u32 = 2;

#[derive(Clone, Copy)]
pub struct Item<R> {
    pub code: u32,
    pub rules: R,
}

impl<R: Rules> Item<R> {
    /// An item of no rule; as cell 0 it says that there is none.
    pub const NONE: Self = Item { code: 0, rules: R::NONE };
}

/// The code of a symbol.
#[inline(always)]
pub fn symbol(id: u16) -> u32 {
    SYMBOLS << 24 | u32::from(id)
}

/// The code of a compound.
#[inline(always)]
pub fn compound(id: u16, arity: u8) -> u32 {
    COMPOUND << 24 | u32::from(id) << 8 | u32::from(arity)
}

/// The code of a number on its gauge.
#[inline(always)]
pub fn number(on_gauge: u32) -> u32 {
    NUMBERS << 24 | on_gauge
}

/// The kind of a code; that of one past all numbers is higher than theirs.
#[inline(always)]
pub fn kind(code: u32) -> u32 {
    code >> 24
}

/// Puts in a code that a rule wants.
#[inline(always)]
pub fn want<R: Rules>(items: &mut [Item<R>], rule: usize, code: u32) {
    let count = items[0].code as usize;
    items[0].code = put(&mut items[1..], count, Item { code, rules: R::of(rule) }) as u32;
}

/// Puts in the two ends of what a rule wants, by its first code and its last.
#[inline(always)]
pub fn want_all<R: Rules>(items: &mut [Item<R>], rule: usize, first: u32, last: u32) {
    let count = items[0].code as usize;
    let rules = R::of(rule);
    let count = put(&mut items[1..], count, Item { code: first, rules });
    items[0].code = put(&mut items[1..], count, Item { code: last + 1, rules }) as u32;
}

/// Puts an item in its position; the sets of equal codes are joined. Gives how many there are then.
fn put<R: Rules>(items: &mut [Item<R>], count: usize, item: Item<R>) -> usize {
    let mut at = count;
    while at > 0 && items[at - 1].code > item.code {
        at -= 1;
    }
    if at > 0 && items[at - 1].code == item.code {
        items[at - 1].rules |= item.rules;
        return count;
    }
    let mut i = count;
    while i > at {
        items[i] = items[i - 1];
        i -= 1;
    }
    items[at] = item;
    count + 1
}

/// Turns ends of series and ranges to running sets, and notes for each rule the items where it begins or ends; gives
/// the rules that have the test.
#[inline(always)]
pub fn run<R: Rules>(items: &mut [Item<R>], marks: &mut [R::Items]) -> R {
    let mut running = R::NONE;
    let mut having = R::NONE;
    for i in 0..items[0].code as usize {
        let Item { code, mut rules } = items[1 + i];
        having |= rules;
        if kind(code) != COMPOUND {
            running ^= rules;
            items[1 + i].rules = running;
        }
        while rules != R::NONE {
            marks[rules.lowest()] |= R::Items::of(i);
            rules = rules.rest();
        }
    }
    having
}

/// The items where one of these rules begins or ends.
#[inline(always)]
pub fn marked<R: Rules>(items: &[Item<R>], marks: &[R::Items], rules: R) -> R::Items {
    if items[0].code < FEW {
        return marked_by_items(items, rules);
    }
    let mut marked = R::Items::NONE;
    let mut left = rules;
    while left != R::NONE {
        marked |= marks[left.lowest()];
        left = left.rest();
    }
    marked
}

/// The same by a look at every item.
#[inline(always)]
fn marked_by_items<R: Rules>(items: &[Item<R>], rules: R) -> R::Items {
    let mut marked = R::Items::NONE;
    let mut last = R::NONE;
    for i in 0..items[0].code as usize {
        let item = items[1 + i];
        let now = item.rules & rules;
        if kind(item.code) != COMPOUND {
            if now != last {
                marked |= R::Items::of(i);
            }
            last = now;
        } else if now != R::NONE {
            marked |= R::Items::of(i);
        }
    }
    marked
}
