//! What requests leave of older graphs. `vectors/graphs_of_32_rules.txt` says what the library wrote for sheets of up to 32
//! rules before requests 9, 4, 5 and 6, in document 01's order and with the arguments backwards. Request 9 kept these
//! graphs; request 4 adds cases for spans and for runs of numbers that no rule accepts, and counts cases in two bytes;
//! request 5 writes a symbol's case with two ends, which in these sheets are one id; since request 6 an unknown settles
//! no pair; request 7 puts a gauge in each number case, which in these sheets is 0. With unknowns that settle pairs again,
//! and without the cases of request 4 and the gauges, numbered anew, counted in one byte and with symbols as one id, the
//! graphs are still the same; those of sheets without pairs are so as they are
//! built. Sheets that were refused are refused by the same numbers, but for graphs that were too large: all of these
//! have pairs, and are built since request 6.

use std::collections::BTreeMap;
use voltunnis_tests::both::{build, build_ordered, enough};
use voltunnis_tests::bytes::from_hex;
use voltunnis_tests::generate::orders::{reversed, table};
use voltunnis_tests::reference::build::{nodes_asking, nodes_in};
use voltunnis_tests::reference::graph::MOST_NODES;
use voltunnis_tests::reference::keys::Asking;
use voltunnis_tests::reference::nodes::{Case, Node};
use voltunnis_tests::reference::order::asking;
use voltunnis_tests::reference::sheet::{Sheet, Want};
use voltunnis_tests::results::Refusal;

/// After a line of words a line for each sheet: what it is, its bytes, and what was said of its two graphs.
const KEPT: &str = include_str!("../vectors/graphs_of_32_rules.txt");

/// Graphs of up to so many nodes are looked at, most of which the library refuses by 18.
const MOST: u16 = 20_000;

/// The 64 bits of the hash FNV-1a.
fn hash(bytes: &[u8]) -> u64 {
    bytes
        .iter()
        .fold(0xcbf2_9ce4_8422_2325, |hash, byte| (hash ^ u64::from(*byte)).wrapping_mul(0x100_0000_01b3))
}

/// A graph while it is numbered anew: its nodes in their new order by their old numbers, and the live rules of each.
struct Anew<'a> {
    sheet: &'a Sheet,
    order: Vec<u16>,
    live: BTreeMap<u16, u64>,
}

impl Anew<'_> {
    /// The new number of a node at which these rules are live, as two bytes.
    fn lead(&mut self, node: u16, live: u64) -> [u8; 2] {
        self.live.entry(node).or_insert(live);
        let before = self.order.iter().position(|known| *known == node);
        let number = before.unwrap_or_else(|| {
            self.order.push(node);
            self.order.len() - 1
        });
        (number as u16).to_be_bytes()
    }

    /// The live rules that a want at this place is asked of, each with what it wants.
    fn wants(&self, live: u64, place: u16) -> Vec<(u64, Want)> {
        let rules = self.sheet.rules.iter().enumerate().filter(|(rule, _)| live >> rule & 1 == 1);
        let want = |wants: &[(u16, Want)]| wants.iter().find(|(at, _)| *at == place).map(|(_, want)| *want);
        rules.filter_map(|(rule, tests)| Some((1 << rule, want(&tests.wants)?))).collect()
    }

    /// The bytes of a switch with one byte for the count, without the cases that it had not before spans.
    fn switch(&mut self, live: u64, place: u16, (neither, unknown): (u16, u16), cases: &[Case]) -> Vec<u8> {
        let wants = self.wants(live, place);
        let others = wants.iter().fold(live, |others, (rule, _)| others & !rule);
        let (mut bytes, mut count) = (Vec::new(), 0);
        for case in cases {
            let Some(rules) = takers(case, &wants) else { continue };
            let [high, low] = self.lead(case.node(), others | rules);
            case_bytes(case, &mut bytes);
            bytes.extend([high, low]);
            count += 1;
        }
        let ([a, b], [c, d]) = (self.lead(neither, others), self.lead(unknown, live));
        let [high, low] = place.to_be_bytes();
        [&[0x43, high, low, count, a, b, c, d][..], &bytes].concat()
    }

    /// The bytes of a pair.
    fn pair(&mut self, live: u64, (p, q): (u16, u16), no: u16, other: u16) -> Vec<u8> {
        let having = |(rule, _): &(usize, _)| self.sheet.rules[*rule].pairs.contains(&(p, q));
        let rules = self.sheet.rules.iter().enumerate().filter(having);
        let others = rules.fold(live, |others, (rule, _)| others & !(1 << rule));
        let wide = [p.to_be_bytes(), q.to_be_bytes(), self.lead(no, others), self.lead(other, live)];
        [&[0x47][..], &wide.concat()].concat()
    }
}

/// The rules that take a case, if it is a symbol, a compound or one run of numbers that some rule accepts: no range
/// of a live rule begins or ends inside it.
fn takers(case: &Case, wants: &[(u64, Want)]) -> Option<u64> {
    let mut rules = 0;
    for (rule, want) in wants {
        rules |= match (case, want) {
            (Case::Symbols { low, high, .. }, Want::Symbols { low: l, high: h }) if (low, high) == (l, h) => {
                *rule
            }
            (Case::Compound { id, arity, .. }, Want::Compound { id: wanted, arity: many })
                if id == wanted && arity == many =>
            {
                *rule
            }
            (Case::Numbers { low, high, .. }, Want::Range { low: l, high: h, .. })
                if l <= low && high <= h =>
            {
                *rule
            }
            (Case::Numbers { low, high, .. }, Want::Range { low: l, high: h, .. })
                if l <= high && low <= h =>
            {
                return None
            }
            _ => 0,
        };
    }
    (rules != 0).then_some(rules)
}

/// The bytes of a case but for its node, and without its gauge.
fn case_bytes(case: &Case, to: &mut Vec<u8>) {
    match case {
        Case::Symbols { low, high, .. } => {
            assert_eq!(low, high, "a symbol of its own");
            to.extend([&[0x44][..], &low.to_be_bytes()].concat());
        }
        Case::Compound { id, arity, .. } => to.extend([&[0x45][..], &id.to_be_bytes(), &[*arity]].concat()),
        Case::Numbers { gauge, low, high, .. } => {
            assert_eq!(*gauge, 0, "a gauge of a sheet that names none");
            to.extend([&[0x46][..], &low.to_be_bytes(), &high.to_be_bytes()].concat());
        }
    }
}

/// What was said of a graph before: its nodes, its bytes and their hash.
fn before(sheet: &Sheet, nodes: &[Node]) -> String {
    let rules = sheet.rules.len() as u32;
    let all = u64::MAX.checked_shr(64 - rules).unwrap_or(0);
    let mut anew = Anew { sheet, order: vec![0], live: BTreeMap::from([(0, all)]) };
    let (mut at, mut bytes) = (0, Vec::new());
    while let Some(&number) = anew.order.get(at) {
        let live = anew.live[&number];
        bytes.extend(match &nodes[usize::from(number)] {
            Node::Fail => vec![0x40],
            Node::Suspend => vec![0x41],
            Node::Execute(rule) => vec![0x42, *rule],
            Node::Switch { place, neither, unknown, cases } => {
                anew.switch(live, *place, (*neither, *unknown), cases)
            }
            Node::Pair { p, q, no, other } => anew.pair(live, (*p, *q), *no, *other),
        });
        at += 1;
    }
    let [high, low] = (at as u16).to_be_bytes();
    let graph = [&[0x12, sheet.arity, rules as u8, high, low][..], &bytes].concat();
    format!("ok {at} {} {:016x}", graph.len(), hash(&graph))
}

/// The nodes of a sheet's graph in this order, with unknowns that settle the pairs with a place at or below theirs, if
/// there are at most so many.
fn settling(sheet: &Sheet, places: &[u16], most: u16) -> Result<Vec<Node>, Refusal> {
    let asking = Asking::new(sheet, asking(places.iter().copied(), &sheet.tests));
    nodes_asking(&asking.settling_pairs(), sheet.rules.len(), most)
}

/// What was said of the graph of a sheet before, by its graph now but for the pairs that unknowns settled; the refusal
/// if there is none.
fn said(bytes: &[u8], places: &[u16]) -> String {
    let nodes = Sheet::read(bytes).and_then(|sheet| {
        let nodes = settling(&sheet, places, MOST)?;
        if sheet.tests.pairs.is_empty() {
            let built = nodes_in(&sheet, asking(places.iter().copied(), &sheet.tests), MOST);
            assert_eq!(built.as_ref(), Ok(&nodes));
        }
        Ok((sheet, nodes))
    });
    match nodes {
        Ok((sheet, nodes)) => before(&sheet, &nodes),
        Err(refusal) => format!("refused {refusal}"),
    }
}

#[test]
fn but_for_pairs_and_the_cases_for_spans_sheets_of_up_to_32_rules_keep_their_graph() {
    let (ascending, backwards): (Vec<u16>, Vec<u16>) = ((0..680).collect(), reversed());
    let (mut rules, mut refusals, mut built) = (BTreeMap::new(), BTreeMap::new(), 0);
    for line in KEPT.lines().skip(1) {
        let [name, sheet, first, second] = line.split('|').collect::<Vec<_>>()[..] else {
            panic!("not a sheet with two graphs: {line}")
        };
        let sheet = from_hex(sheet);
        let order = table(&backwards);
        // The library's graphs are those of the reference, which are looked at.
        let in_turn = build(&sheet, enough(&sheet, None)).0;
        let ordered = build_ordered(&sheet, &order, enough(&sheet, Some(&order))).0;
        built += [in_turn, ordered].iter().filter(|graph| graph.is_ok()).count();
        for (places, before, now) in [(&ascending, first, in_turn), (&backwards, second, ordered)] {
            match before {
                // Each of these sheets has pairs, and a smaller graph since unknowns settle none.
                "refused 18" => {
                    let read = Sheet::read(&sheet).expect("a sheet");
                    assert_eq!(settling(&read, places, MOST_NODES), Err(18), "{name}");
                    assert!(now.is_ok() && !read.tests.pairs.is_empty(), "{name}: {now:?}");
                }
                _ => assert_eq!(said(&sheet, places), before, "{name}"),
            }
        }
        match first.strip_prefix("refused ") {
            Some(refusal) => *refusals.entry(refusal).or_insert(0) += 1,
            None => *rules.entry(sheet[2]).or_insert(0) += 1,
        }
    }
    println!("{built} graphs built, graphs before by rules {rules:?}, by refusal {refusals:?}");
    assert!(rules.values().sum::<usize>() >= 40 && rules[&32] >= 12, "graphs by rules {rules:?}");
    assert!(built >= 60, "{built} graphs built");
    assert!(
        ["4", "7", "9", "10", "11", "18"].iter().all(|refusal| refusals.contains_key(refusal)),
        "{refusals:?}"
    );
}
