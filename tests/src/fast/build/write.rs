//! The second pass: the numbered nodes written to the buffer.

use super::super::records::{
    put_wide, COMPOUND_BYTES, COMPOUND_CASE, NUMBERS_BYTES, NUMBERS_CASE, SWITCH, SYMBOLS_BYTES, SYMBOLS_CASE,
};
use super::items;
use super::keys::{Key, Keys};
use super::rules::Tests;
use super::runs::Runs;
use super::sets::{Rules, Set};

/// Writes a graph of so many nodes, for which the buffer has room.
pub fn graph<R: Rules>(buffer: &mut [u8], nodes: usize, tests: &Tests<R>, keys: &Keys<R>, edges: &[u16]) {
    let sheet = tests.sheet;
    buffer[0] = 0x12;
    buffer[1] = sheet.arity;
    buffer[2] = sheet.rules;
    put_wide(buffer, 3, nodes as u16);
    let mut targets = Targets { tests, keys, edges, unsettled: 0, cover: R::NONE, next: 0 };
    let mut runs = Runs::none();
    let mut at = 5;
    for node in 0..nodes {
        let bytes = &mut buffer[at..];
        let key = keys.get(node);
        at += if key.is_leaf() {
            leaf(bytes, key)
        } else {
            let test = key.pending.trailing_zeros() as usize & 63;
            targets.leave(key.live, key.pending & !(1 << test));
            match test < usize::from(sheet.places) {
                true => switch(bytes, key, test, &mut targets, &mut runs),
                false => pair(bytes, key, test, &mut targets),
            }
        };
    }
}

/// Writes a leaf; gives how many bytes it has.
fn leaf<R: Rules>(bytes: &mut [u8], key: Key<R>) -> usize {
    if key.live == R::NONE {
        bytes[0] = 0x40 + key.pending as u8;
        return 1;
    }
    bytes[0] = 0x42;
    bytes[1] = key.live.lowest() as u8 + 1;
    2
}

/// The edges that the first pass stored, and what is needed to search the others.
struct Targets<'a, R: Rules> {
    tests: &'a Tests<'a, R>,
    keys: &'a Keys<'a, R>,
    edges: &'a [u16],
    /// The tests of the node that are left, and a cover of the live rules by them.
    unsettled: u64,
    cover: R,
    /// The next edge.
    next: usize,
}

impl<R: Rules> Targets<'_, R> {
    /// The edges that come next leave these tests.
    #[inline(always)]
    fn leave(&mut self, live: R, unsettled: u64) {
        self.unsettled = unsettled;
        self.cover = self.tests.cover(live, unsettled);
    }

    /// The node of the next edge, at which these rules are live.
    #[inline(always)]
    fn next(&mut self, live: R) -> u16 {
        let edge = self.next;
        self.next += 1;
        if edge < self.edges.len() {
            return self.edges[edge];
        }
        self.keys.find(self.tests.key(live, self.unsettled, self.cover)) as u16
    }
}

/// Writes a switch; gives how many bytes it has.
fn switch<R: Rules>(
    bytes: &mut [u8],
    key: Key<R>,
    test: usize,
    targets: &mut Targets<R>,
    runs: &mut Runs<R>,
) -> usize {
    let tests = targets.tests;
    let others = key.live & !tests.having[test];
    let items = tests.items(test);
    let mut marked = tests.marked(test, key.live & tests.having[test]);
    let mut at = SWITCH;
    let mut cases = 0;
    while marked != R::Items::NONE {
        let item = items[1 + marked.lowest()];
        if items::kind(item.code) >= items::NUMBERS {
            break;
        }
        marked = marked.rest();
        let rules = item.rules & key.live;
        if rules != R::NONE {
            // Where a run of ids ends is marked too.
            let last = || items[1 + marked.lowest()].code - 1;
            at += case(&mut bytes[at..], item.code, last, targets.next(others | rules));
            cases += 1;
        }
    }
    while runs.cut(items, &mut marked, key.live) {
        at += numbers(&mut bytes[at..], runs, others, targets);
        cases += runs.cases();
    }
    let neither = targets.next(others);
    targets.leave(key.live, targets.unsettled & !tests.settled[test]);
    let unknown = targets.next(key.live);
    header(bytes, tests.places[test], cases, neither, unknown);
    at
}

/// Writes the cases of pairs of runs on a gauge; gives how many bytes they have.
fn numbers<R: Rules>(bytes: &mut [u8], runs: &Runs<R>, others: R, targets: &mut Targets<R>) -> usize {
    let mut cases = bytes.chunks_exact_mut(NUMBERS_BYTES);
    let mut last = None;
    let mut node = 0;
    for first in 0..runs.count {
        let [low_high, low_low] = (runs.starts[first] as u16).to_be_bytes();
        let mut some = R::NONE;
        for run in first..runs.count {
            some |= runs.sets[run];
            if last != Some(some) {
                node = targets.next(others | some);
                last = Some(some);
            }
            let ([a, b], [c, d]) = (((runs.starts[run + 1] - 1) as u16).to_be_bytes(), node.to_be_bytes());
            if let Some(case) = cases.next() {
                case.copy_from_slice(&[NUMBERS_CASE, runs.gauge, low_high, low_low, a, b, c, d]);
            }
        }
    }
    NUMBERS_BYTES * runs.cases()
}

/// Writes a switch's record, its cases apart.
#[inline(always)]
fn header(bytes: &mut [u8], place: u16, cases: usize, neither: u16, unknown: u16) {
    put_wide(bytes, 7, unknown);
    put_wide(bytes, 5, neither);
    put_wide(bytes, 3, cases as u16);
    put_wide(bytes, 1, place);
    bytes[0] = 0x43;
}

/// Writes a pair; gives how many bytes it has.
fn pair<R: Rules>(bytes: &mut [u8], key: Key<R>, test: usize, targets: &mut Targets<R>) -> usize {
    let tests = targets.tests;
    let pair = tests.sheet.pairs[test - usize::from(tests.sheet.places)];
    bytes[0] = 0x47;
    put_wide(bytes, 1, (pair >> 16) as u16);
    put_wide(bytes, 3, pair as u16);
    put_wide(bytes, 5, targets.next(key.live & !tests.having[test]));
    put_wide(bytes, 7, targets.next(key.live));
    9
}

/// Writes the case of a run of ids, of which the last code is asked for, or of a compound, its last field first, so
/// that bounds are checked once; gives how many bytes it has.
#[inline(always)]
fn case(bytes: &mut [u8], code: u32, last: impl Fn() -> u32, node: u16) -> usize {
    if items::kind(code) == items::SYMBOLS {
        put_wide(bytes, 5, node);
        put_wide(bytes, 3, last() as u16);
        put_wide(bytes, 1, code as u16);
        bytes[0] = SYMBOLS_CASE;
        return SYMBOLS_BYTES;
    }
    put_wide(bytes, 4, node);
    bytes[3] = code as u8;
    put_wide(bytes, 1, (code >> 8) as u16);
    bytes[0] = COMPOUND_CASE;
    COMPOUND_BYTES
}
