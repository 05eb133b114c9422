//! The cases of a switch, from what the rules want at its place.

use super::sheet::Want;
use std::collections::BTreeMap;

/// Ids, or numbers on one gauge, from the first to the last, and the rules that accept them.
#[derive(Clone, Copy, Debug, PartialEq, Eq)]
pub struct Run {
    pub low: u16,
    pub high: u16,
    pub rules: u64,
}

/// The numbers on a gauge.
struct Gauge {
    gauge: u8,
    /// The rules that want a range on it.
    ranged: u64,
    /// All of them in runs that the same rules accept, none included, ascending.
    runs: Vec<Run>,
}

/// What is wanted at a place.
pub struct Cases {
    /// All ids in runs that the same rules accept, none included, ascending.
    symbols: Vec<Run>,
    /// The compounds by id and arity, in order, each with the rules that want it.
    compounds: Vec<((u16, u8), u64)>,
    /// The gauges on which a range is wanted, ascending.
    gauges: Vec<Gauge>,
}

impl Cases {
    /// What these rules want.
    pub fn new(wants: &[(usize, Want)]) -> Cases {
        let (mut symbols, mut gauges) = (Vec::new(), BTreeMap::<u8, Vec<(u32, u64)>>::new());
        let mut compounds: Vec<((u16, u8), u64)> = Vec::new();
        for &(rule, want) in wants {
            let rules = 1 << rule;
            match want {
                Want::Symbols { low, high } => symbols.extend(ends(low, high, rules)),
                Want::Compound { id, arity } => {
                    match compounds.binary_search_by_key(&(id, arity), |(known, _)| *known) {
                        Ok(at) => compounds[at].1 |= rules,
                        Err(at) => compounds.insert(at, ((id, arity), rules)),
                    }
                }
                Want::Range { gauge, low, high } => {
                    gauges.entry(gauge).or_default().extend(ends(low, high, rules));
                }
            }
        }
        let gauge = |(gauge, ends): (u8, Vec<(u32, u64)>)| {
            let ranged = ends.iter().fold(0, |all, (_, rules)| all | rules);
            Gauge { gauge, ranged, runs: runs(ends) }
        };
        Cases { symbols: runs(symbols), compounds, gauges: gauges.into_iter().map(gauge).collect() }
    }

    /// The maximal runs of ids that the same non-empty set of these rules accepts.
    pub fn symbols(&self, live: u64, to: &mut Vec<Run>) {
        maximal(&self.symbols, live, to);
        to.retain(|run| run.rules != 0);
    }

    /// The compounds that one of these rules wants, by id and arity, each with those that do.
    pub fn compounds(&self, live: u64) -> impl Iterator<Item = ((u16, u8), u64)> + '_ {
        self.compounds.iter().map(move |(name, rules)| (*name, rules & live)).filter(|(_, rules)| *rules != 0)
    }

    /// Of each gauge on which one of these rules wants a range, ascending, all numbers in runs; those beside each other
    /// may be accepted by the same set of these rules, which `maximal` joins.
    pub fn gauges(&self, live: u64) -> impl Iterator<Item = (u8, &[Run])> + '_ {
        let wanted = self.gauges.iter().filter(move |gauge| gauge.ranged & live != 0);
        wanted.map(|gauge| (gauge.gauge, &gauge.runs[..]))
    }
}

/// Runs that the same set of these rules accepts, joined.
pub fn maximal(runs: &[Run], live: u64, to: &mut Vec<Run>) {
    to.clear();
    for run in runs {
        let rules = run.rules & live;
        match to.last_mut() {
            Some(last) if last.rules == rules => last.high = run.high,
            _ => to.push(Run { rules, ..*run }),
        }
    }
}

/// A case for each pair of first and last run, ordered so, with the rules that accept a number of it.
pub fn pairs(runs: &[Run]) -> impl Iterator<Item = Run> + '_ {
    runs.iter().enumerate().flat_map(move |(at, first)| {
        let mut some = 0;
        runs[at..].iter().map(move |last| {
            some |= last.rules;
            Run { low: first.low, high: last.high, rules: some }
        })
    })
}

/// Where a series or range of these rules begins, and the first that it does not hold.
fn ends(low: u16, high: u16, rules: u64) -> [(u32, u64); 2] {
    [(u32::from(low), rules), (u32::from(high) + 1, rules)]
}

/// All ids, or numbers, in runs between ends; no runs if there is no end.
fn runs(mut ends: Vec<(u32, u64)>) -> Vec<Run> {
    const ALL: u32 = 0x1_0000;
    if ends.is_empty() {
        return Vec::new();
    }
    ends.sort_unstable();
    let mut runs = Vec::with_capacity(ends.len() + 1);
    let (mut low, mut rules) = (0, 0);
    for &(end, rule) in ends.iter().chain(&[(ALL, 0)]) {
        if low < end {
            runs.push(Run { low: low as u16, high: (end - 1) as u16, rules });
        }
        low = end;
        rules ^= rule;
    }
    runs
}
