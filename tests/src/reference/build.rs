//! Building the graph of a sheet: nodes breadth first from the root, then the buffer.

use super::cases::{maximal, pairs, Cases, Run};
use super::graph::MOST_NODES;
use super::keys::{Asking, Key, Kind};
use super::nodes::{graph_bytes, Case, Node};
use super::sheet::{Sheet, MOST_RULES};
use crate::results::Refusal;

/// Room for so many nodes is made at first.
const FEW: usize = 32;

/// The most runs of numbers at a place, if all ranges are on one gauge: one more than their ends, two for each rule. On
/// several gauges there may be more runs in all, but fewer pairs of runs of one gauge.
const MOST_RUNS: usize = 2 * MOST_RULES as usize + 1;

/// The most bytes of a graph that is built: 5, and for each node 9 and its cases of 8, one for each pair of runs.
pub const MOST_BUILT: usize = 5 + MOST_NODES as usize * (9 + 8 * (MOST_RUNS * (MOST_RUNS + 1) / 2));

/// The nodes met so far: what each is, by number; the numbers of leaves; and the keys of those that
/// ask, each with its number.
#[derive(Default)]
struct Known {
    /// How many nodes there may be.
    most: u16,
    kinds: Vec<Kind>,
    fail: Option<u16>,
    suspend: Option<u16>,
    /// That of each rule's execute.
    execute: Vec<Option<u16>>,
    keys: Vec<(Key, u16)>,
    /// The runs of ids, then those of the numbers of a gauge, at the place that is asked.
    runs: Vec<Run>,
}

impl Known {
    /// The number of the node that is this: that of the node met before, or the next. Most keys that
    /// are met again were met not long ago, so the newest are looked at first.
    fn number(&mut self, kind: Kind) -> Result<u16, Refusal> {
        let before = match kind {
            Kind::Fail => self.fail,
            Kind::Suspend => self.suspend,
            Kind::Execute(rule) => self.execute[usize::from(rule) - 1],
            Kind::Ask(key) => {
                self.keys.iter().rev().find(|(known, _)| *known == key).map(|(_, number)| *number)
            }
        };
        before.map_or_else(|| self.next(kind), Ok)
    }

    /// The number of the next node, which is this. Question 18: are there at most so many nodes?
    fn next(&mut self, kind: Kind) -> Result<u16, Refusal> {
        let number = self.kinds.len() as u16;
        if number == self.most {
            return Err(18);
        }
        match kind {
            Kind::Fail => self.fail = Some(number),
            Kind::Suspend => self.suspend = Some(number),
            Kind::Execute(rule) => self.execute[usize::from(rule) - 1] = Some(number),
            Kind::Ask(key) => self.keys.push((key, number)),
        }
        self.kinds.push(kind);
        Ok(number)
    }

    /// The node with this key, which asks the first pending test. Its edges are taken in order: the
    /// cases, neither, unknown; or no, other.
    fn node(&mut self, asking: &Asking, key: Key) -> Result<Node, Refusal> {
        let test = asking.first(key.pending);
        let unsettled = key.pending & !(1 << test);
        let tested = key.live & asking.having[test];
        let others = key.live & !tested;
        let Some(asked) = asking.places.get(test) else {
            let (p, q) = asking.pairs[test - asking.places.len()];
            let no = self.number(asking.kind(others, unsettled))?;
            let other = self.number(asking.kind(key.live, unsettled))?;
            return Ok(Node::Pair { p, q, no, other });
        };
        let cases = self.cases(&asked.cases, tested, |rules| asking.kind(others | rules, unsettled))?;
        let neither = self.number(asking.kind(others, unsettled))?;
        let unknown = self.number(asking.kind(key.live, key.pending & !asked.settled))?;
        Ok(Node::Switch { place: asked.place, neither, unknown, cases })
    }

    /// The cases of a switch that is asked of these rules.
    fn cases(
        &mut self,
        wanted: &Cases,
        tested: u64,
        kind: impl Fn(u64) -> Kind,
    ) -> Result<Vec<Case>, Refusal> {
        let mut cases = Vec::new();
        let mut runs = std::mem::take(&mut self.runs);
        wanted.symbols(tested, &mut runs);
        for &Run { low, high, rules } in &runs {
            cases.push(Case::Symbols { low, high, node: self.number(kind(rules))? });
        }
        for ((id, arity), rules) in wanted.compounds(tested) {
            cases.push(Case::Compound { id, arity, node: self.number(kind(rules))? });
        }
        for (gauge, all) in wanted.gauges(tested) {
            maximal(all, tested, &mut runs);
            cases.reserve(runs.len() * (runs.len() + 1) / 2);
            self.numbers(gauge, &runs, &kind, &mut cases)?;
        }
        self.runs = runs;
        Ok(cases)
    }

    /// Adds the cases of pairs of runs of a gauge. Where the rules are those of the case before, so is the node.
    fn numbers(
        &mut self,
        gauge: u8,
        runs: &[Run],
        kind: impl Fn(u64) -> Kind,
        cases: &mut Vec<Case>,
    ) -> Result<(), Refusal> {
        let mut before = None;
        for Run { low, high, rules } in pairs(runs) {
            let node = match before {
                Some((same, node)) if same == rules => node,
                _ => self.number(kind(rules))?,
            };
            before = Some((rules, node));
            cases.push(Case::Numbers { gauge, low, high, node });
        }
        Ok(())
    }
}

/// The nodes of a sheet's graph. Question 18: has the graph at most 1,024 nodes?
pub fn nodes(sheet: &Sheet) -> Result<Vec<Node>, Refusal> {
    nodes_up_to(sheet, MOST_NODES)
}

/// The nodes of a sheet's graph, if there are at most so many.
pub fn nodes_up_to(sheet: &Sheet, most: u16) -> Result<Vec<Node>, Refusal> {
    nodes_in(sheet, (0..sheet.tests.count()).collect(), most)
}

/// The nodes of a sheet's graph whose tests are asked in this order, if there are at most so many.
pub fn nodes_in(sheet: &Sheet, order: Vec<usize>, most: u16) -> Result<Vec<Node>, Refusal> {
    nodes_asking(&Asking::new(sheet, order), sheet.rules.len(), most)
}

/// The nodes of the graph of so many rules that have these tests, if there are at most so many.
pub fn nodes_asking(asking: &Asking, rules: usize, most: u16) -> Result<Vec<Node>, Refusal> {
    let (kinds, keys) = (Vec::with_capacity(FEW), Vec::with_capacity(FEW));
    let execute = vec![None; rules];
    let mut known = Known { most, kinds, execute, keys, ..Known::default() };
    known.number(asking.root(rules))?;
    let mut nodes = Vec::with_capacity(FEW);
    while let Some(kind) = known.kinds.get(nodes.len()) {
        nodes.push(match *kind {
            Kind::Fail => Node::Fail,
            Kind::Execute(rule) => Node::Execute(rule),
            Kind::Suspend => Node::Suspend,
            Kind::Ask(key) => known.node(asking, key)?,
        });
    }
    Ok(nodes)
}

/// Writes nodes to the start of a buffer and leaves the bytes after them. Gives the number of bytes
/// written. Question 19: does it fit the lent buffer?
pub fn write(sheet: &Sheet, nodes: &[Node], buffer: &mut [u8]) -> Result<u32, Refusal> {
    let bytes = graph_bytes(sheet.arity, sheet.rules.len() as u8, nodes);
    buffer.get_mut(..bytes.len()).ok_or(19)?.copy_from_slice(&bytes);
    Ok(bytes.len() as u32)
}
