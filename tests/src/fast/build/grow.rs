//! The first pass: all nodes numbered breadth first, and their bytes counted.

use super::super::records::{COMPOUND_BYTES, NUMBERS_BYTES, SWITCH, SYMBOLS_BYTES};
use super::items;
use super::keys::{Key, Keys};
use super::rules::Tests;
use super::runs::Runs;
use super::sets::{Rules, Set};

/// How much of the graph is known.
#[derive(Clone, Copy)]
pub struct Grown {
    pub bytes: usize,
    pub nodes: usize,
    edges: usize,
}

impl Grown {
    /// Takes the edge to the node with this key; none if there is no room for the node.
    #[inline(always)]
    fn edge<R: Rules>(self, key: Key<R>, keys: &mut Keys<R>, edges: &mut [u16]) -> Option<Grown> {
        let mut grown = self;
        let node = keys.number(key, grown.nodes);
        if node == grown.nodes {
            grown.nodes += 1;
            if grown.nodes > keys.room() {
                return None;
            }
        }
        if grown.edges < edges.len() {
            edges[grown.edges] = node as u16;
        }
        grown.edges += 1;
        Some(grown)
    }
}

/// Numbers all nodes; none if there is no room for them.
pub fn all<R: Rules>(tests: &Tests<R>, keys: &mut Keys<R>, edges: &mut [u16]) -> Option<Grown> {
    let sheet = tests.sheet;
    let (live, pending) = (R::below(sheet.rules), u64::below(sheet.places + sheet.pair_count));
    keys.number(tests.key(live, pending, tests.cover(live, pending)), 0);
    let mut grown = Grown { bytes: 5, nodes: 1, edges: 0 };
    let mut runs = Runs::none();
    let mut node = 0;
    while node < grown.nodes {
        let key = keys.get(node);
        if key.is_leaf() {
            grown.bytes += 1 + usize::from(key.live != R::NONE);
        } else {
            let test = key.pending.trailing_zeros() as usize & 63;
            grown = if test < usize::from(sheet.places) {
                switch(tests, key, test, grown, keys, edges, &mut runs)?
            } else {
                pair(tests, key, test, grown, keys, edges)?
            };
        }
        node += 1;
    }
    Some(grown)
}

/// Numbers the nodes that a switch leads to.
fn switch<R: Rules>(
    tests: &Tests<R>,
    key: Key<R>,
    test: usize,
    mut grown: Grown,
    keys: &mut Keys<R>,
    edges: &mut [u16],
    runs: &mut Runs<R>,
) -> Option<Grown> {
    let unsettled = key.pending & !(1 << test);
    let cover = tests.cover(key.live, unsettled);
    let others = key.live & !tests.having[test];
    let items = tests.items(test);
    let mut marked = tests.marked(test, key.live & tests.having[test]);
    grown.bytes += SWITCH;
    while marked != R::Items::NONE {
        let item = items[1 + marked.lowest()];
        if items::kind(item.code) >= items::NUMBERS {
            break;
        }
        marked = marked.rest();
        let rules = item.rules & key.live;
        if rules != R::NONE {
            grown = grown.edge(tests.key(others | rules, unsettled, cover), keys, edges)?;
            let is_run = items::kind(item.code) == items::SYMBOLS;
            grown.bytes += if is_run { SYMBOLS_BYTES } else { COMPOUND_BYTES };
        }
    }
    let key_with = |some: R| tests.key(others | some, unsettled, cover);
    while runs.cut(items, &mut marked, key.live) {
        grown.bytes += NUMBERS_BYTES * runs.cases();
        grown = numbers(runs, key_with, grown, keys, edges)?;
    }
    grown = grown.edge(tests.key(others, unsettled, cover), keys, edges)?;
    let unsettled = unsettled & !tests.settled[test];
    grown.edge(tests.key(key.live, unsettled, tests.cover(key.live, unsettled)), keys, edges)
}

/// Numbers the nodes that pairs of runs on a gauge lead to; where the rules are those of the case before, so is the node.
#[inline(always)]
fn numbers<R: Rules>(
    runs: &Runs<R>,
    key_with: impl Fn(R) -> Key<R>,
    mut grown: Grown,
    keys: &mut Keys<R>,
    edges: &mut [u16],
) -> Option<Grown> {
    let mut last = None;
    for first in 0..runs.count {
        let mut some = R::NONE;
        for set in &runs.sets[first..runs.count] {
            some |= *set;
            if last != Some(some) {
                grown = grown.edge(key_with(some), keys, edges)?;
                last = Some(some);
            }
        }
    }
    Some(grown)
}

/// Numbers the nodes that a pair leads to.
fn pair<R: Rules>(
    tests: &Tests<R>,
    key: Key<R>,
    test: usize,
    mut grown: Grown,
    keys: &mut Keys<R>,
    edges: &mut [u16],
) -> Option<Grown> {
    let unsettled = key.pending & !(1 << test);
    let cover = tests.cover(key.live, unsettled);
    grown.bytes += 9;
    grown = grown.edge(tests.key(key.live & !tests.having[test], unsettled, cover), keys, edges)?;
    grown.edge(tests.key(key.live, unsettled, cover), keys, edges)
}
