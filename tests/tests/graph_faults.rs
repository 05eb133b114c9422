//! One fault at a time in graphs that are accepted, at every node: the number that refuses it, from the
//! check and from writing again, to buffers of exact size and one byte shorter.

use voltunnis_tests::faults::{graphs, leads, led_to, with_cases, Made, Met};
use voltunnis_tests::reference::nodes::{graph_bytes, Case, Node};

#[test]
fn a_node_that_is_not_there_is_refused_by_23() {
    let mut met = Met::default();
    for made in graphs() {
        let count = made.nodes.len() as u16;
        met.every_node(&made, |_, node| led_to(node, count), Err(23));
        met.every_node(&made, |_, node| led_to(node, 0xffff), Err(23));
        met.every_node(&made, |_, node| led_to(node, count - 1), Ok(()));
    }
    met.at_least(1000, &[0, 19, 23]);
}

#[test]
fn cycles_are_accepted() {
    let mut met = Met::default();
    for mut made in graphs() {
        met.every_node(&made, |_, node| led_to(node, 0), Ok(()));
        for (at, node) in made.nodes.iter_mut().enumerate() {
            leads(node).into_iter().for_each(|lead| *lead = at as u16);
        }
        let graph = graph_bytes(made.sheet.arity, made.sheet.rules.len() as u8, &made.nodes);
        met.says(&made.bytes, &graph, Ok(made.nodes.len() as u16));
    }
    met.at_least(1000, &[0, 19]);
}

#[test]
fn a_test_or_rule_that_the_sheet_lacks_is_refused_by_23() {
    let mut met = Met::default();
    let wrong = |made: &Made, node: &Node| {
        let tests = &made.sheet.tests;
        let untested = (0..).find(|place| !tests.places.contains(place)).expect("at most 64 tests");
        match *node {
            Node::Execute(_) => [0, made.sheet.rules.len() as u8 + 1, 255].map(Node::Execute).to_vec(),
            Node::Switch { neither, unknown, ref cases, .. } => [untested, 680, 0xffff]
                .map(|place| Node::Switch { place, neither, unknown, cases: cases.clone() })
                .to_vec(),
            Node::Pair { p, q, no, other } => {
                [(q, p), (p, p), (q, q), (p, 680)].map(|(p, q)| Node::Pair { p, q, no, other }).to_vec()
            }
            _ => Vec::new(),
        }
    };
    graphs().iter().for_each(|made| met.every_node(made, wrong, Err(23)));
    met.at_least(1000, &[23]);
}

#[test]
fn cases_out_of_order_or_doubled_are_refused_by_24() {
    let mut met = Met::default();
    let swapped = |cases: &[Case]| -> Vec<Vec<Case>> {
        let swap = |at: usize| {
            let mut cases = cases.to_vec();
            cases.swap(at - 1, at);
            cases
        };
        (1..cases.len()).map(swap).collect()
    };
    let doubled = |cases: &[Case]| -> Vec<Vec<Case>> {
        let double = |at: usize| [&cases[..=at], &cases[at..]].concat();
        (0..cases.len()).map(double).collect()
    };
    for made in graphs() {
        met.every_node(&made, |_, node| with_cases(node, swapped), Err(24));
        met.every_node(&made, |_, node| with_cases(node, doubled), Err(24));
    }
    met.at_least(1000, &[24]);
}

#[test]
fn compound_cases_may_have_any_arity() {
    let mut met = Met::default();
    let any = |cases: &[Case]| -> Vec<Vec<Case>> {
        let symbols = cases.iter().copied().filter(|case| matches!(case, Case::Symbols { .. }));
        let with = |arities: &[u8]| {
            let compounds = arities.iter().map(|arity| Case::Compound { id: 7, arity: *arity, node: 0 });
            symbols.clone().chain(compounds).collect()
        };
        vec![with(&[0]), with(&[255]), with(&[0, 255]), with(&[0, 1, 2, 3, 4, 5, 254, 255])]
    };
    graphs().iter().for_each(|made| met.every_node(made, |_, node| with_cases(node, any), Ok(())));
    met.at_least(500, &[0, 19]);
}

#[test]
fn cut_bytes_are_refused_by_22_and_appended_ones_by_25() {
    let mut met = Met::default();
    for made in graphs() {
        let graph = graph_bytes(made.sheet.arity, made.sheet.rules.len() as u8, &made.nodes);
        for cut in 0..graph.len() {
            met.says(&made.bytes, &graph[..cut], Err(if cut < 5 { 21 } else { 22 }));
        }
        for more in [&[0x00][..], &[0x41], &[0xff], &graph] {
            met.says(&made.bytes, &[&graph, more].concat(), Err(25));
        }
    }
    met.at_least(500, &[21, 22, 25]);
}

#[test]
fn a_header_that_does_not_fit_is_refused_by_21() {
    let mut met = Met::default();
    for made in graphs() {
        let (rules, count) = (made.sheet.rules.len() as u8, made.nodes.len());
        let graph = graph_bytes(made.sheet.arity, rules, &made.nodes);
        let mut with = |at: usize, bytes: &[u8], refusal| {
            let mut graph = graph.clone();
            graph[at..at + bytes.len()].copy_from_slice(bytes);
            met.says(&made.bytes, &graph, Err(refusal));
        };
        with(0, &[0x10], 21);
        with(0, &[0x13], 21);
        with(1, &[made.sheet.arity + 1], 21);
        with(1, &[made.sheet.arity - 1], 21);
        with(2, &[rules + 1], 21);
        with(2, &[rules.wrapping_sub(1)], 21);
        for wrong in [0, 1025, 0xffff] {
            with(3, &u16::to_be_bytes(wrong), 21);
        }
        with(3, &(count as u16 + 1).to_be_bytes(), 22);
        with(3, &[4, 0], 22);
    }
    met.at_least(400, &[21, 22]);
}
