//! Numbers on gauges (document 02, request 7): the shared vectors, when two numbers are equal, what a range on a gauge
//! takes, spans and ranged variables on gauge 0, and the cases of each gauge by itself.

use std::slice::from_ref;
use voltunnis_tests::both::{build, check_graph, enough, walk_own};
use voltunnis_tests::bytes::{from_hex, to_hex};
use voltunnis_tests::generate::known;
use voltunnis_tests::generate::nodes::{Case, GraphNodes, Node};
use voltunnis_tests::generate::trees::{piece_bytes, Pattern, SheetTree, Term};
use voltunnis_tests::request;
use voltunnis_tests::results::GraphSize;

/// The vectors of request 7.
const VECTORS: &str = include_str!("../vectors/gauges.txt");

#[test]
fn the_shared_vectors_are_met() {
    let calls: Vec<&str> = VECTORS.lines().map(|line| request::met(line, &["7"])).collect();
    let of = |name: &str| calls.iter().filter(|call| **call == name).count();
    assert_eq!((of("plain"), of("build"), of("tidy"), of("listing"), calls.len()), (4, 4, 1, 3, 12));
}

/// Gauges and values at both ends, and some beside each other.
const GAUGES: [u8; 6] = [0, 1, 2, 127, 254, 255];
const VALUES: [u16; 7] = [0, 1, 5, 0x00ff, 0x0100, 0xfffe, 0xffff];

/// The word and rule that the walk on the sheet's own graph says of terms, and the wait list.
#[track_caller]
fn said(sheet: &SheetTree, terms: &[Term]) -> String {
    let answer = walk_own(&sheet.bytes(), &piece_bytes(terms));
    format!("{} {} {:x}", answer.walk.word.name(), answer.walk.rule, answer.wait)
}

/// The sheet of one argument whose rules want these patterns.
fn rules(patterns: &[Pattern]) -> SheetTree {
    SheetTree { arity: 1, rules: patterns.iter().map(|pattern| vec![pattern.clone()]).collect() }
}

/// The rule (X, X).
fn alike() -> SheetTree {
    SheetTree { arity: 2, rules: vec![vec![Pattern::Variable(0); 2]] }
}

/// All numbers of these gauges and values; those on gauge 0 also without its name.
fn numbers() -> Vec<(u8, u16, Term)> {
    let named =
        GAUGES.iter().flat_map(|gauge| VALUES.map(|value| (*gauge, value, Term::Gauged(*gauge, value))));
    named.chain(VALUES.map(|value| (0, value, Term::Number(value)))).collect()
}

#[test]
fn two_numbers_are_equal_only_if_gauge_and_value_are() {
    let f = |term: &Term, other: Term| Term::Compound(7, vec![other, term.clone()]);
    for (gauge, value, one) in &numbers() {
        for (g, v, other) in &numbers() {
            let expected = if (gauge, value) == (g, v) { "commit 1 0" } else { "fail 0 0" };
            assert_eq!(said(&alike(), &[one.clone(), other.clone()]), expected, "{one:?} {other:?}");
            // Inside compounds the difference shows beside an unknown.
            let open = [f(one, Term::Unknown), f(other, Term::Unknown)];
            let expected = if (gauge, value) == (g, v) { "execute 1 1" } else { "fail 0 0" };
            assert_eq!(said(&alike(), &open), expected, "{one:?} {other:?}");
        }
        for other in [Term::Symbol(*value), f(one, Term::Unknown), Term::Never] {
            assert_eq!(said(&alike(), &[one.clone(), other]), "fail 0 0", "{one:?}");
        }
        assert_eq!(said(&alike(), &[one.clone(), Term::Unknown]), "execute 1 1", "{one:?}");
    }
}

#[test]
fn a_span_is_on_gauge_0() {
    for (gauge, value, number) in &numbers() {
        for (low, high) in [(0, 0xffff), (1, 0xfffe), (5, 0x0100), (*value, *value), (*value, 0xffff)] {
            let expected = match (*gauge == 0 && low <= *value && *value <= high, low == high) {
                (true, true) => "commit 1 0",
                (true, false) => "execute 1 1",
                (false, _) => "fail 0 0",
            };
            for terms in [[Term::Span(low, high), number.clone()], [number.clone(), Term::Span(low, high)]] {
                assert_eq!(said(&alike(), &terms), expected, "{terms:?}");
            }
        }
        // A range on a gauge takes a span only if that is gauge 0.
        let range = rules(&[Pattern::Gauged(*gauge, *value, 0xffff)]);
        let inside = if *gauge == 0 { "commit 1 0" } else { "fail 0 0" };
        assert_eq!(said(&range, &[Term::Span(*value, 0xffff)]), inside, "{gauge} {value}");
        let partly = if *gauge == 0 && *value > 0 { "execute 1 1" } else { inside };
        assert_eq!(said(&range, &[Term::Span(0, 0xffff)]), partly, "{gauge} {value}");
    }
}

#[test]
fn a_range_takes_the_gauge_that_it_names() {
    for gauge in GAUGES {
        for (low, high) in [(0, 0), (0, 0xffff), (5, 0x0100), (0xffff, 0xffff), (1, 0xfffe)] {
            let mut ranges = vec![Pattern::Gauged(gauge, low, high)];
            ranges.extend((gauge == 0).then_some(Pattern::Range(low, high)));
            for range in ranges.iter().map(|range| rules(from_ref(range))) {
                for (g, value, number) in &numbers() {
                    let holds = *g == gauge && low <= *value && *value <= high;
                    let expected = if holds { "commit 1 0" } else { "fail 0 0" };
                    assert_eq!(said(&range, from_ref(number)), expected, "{gauge} {low} {high} {number:?}");
                }
                assert_eq!(said(&range, &[Term::Unknown]), "execute 1 1");
                for other in [Term::Symbol(low), Term::Compound(low, vec![Term::Number(low)]), Term::Never] {
                    assert_eq!(said(&range, &[other]), "fail 0 0");
                }
            }
        }
    }
}

#[test]
fn ranges_on_variables_keep_to_gauge_0() {
    let one = rules(&[Pattern::Ranged(3, 0, 0xffff)]);
    let two = [Pattern::Ranged(3, 0, 0xffff), Pattern::Variable(3)];
    let two = SheetTree { arity: 2, rules: vec![two.to_vec()] };
    for (gauge, _, number) in &numbers() {
        let expected = if *gauge == 0 { "commit 1 0" } else { "fail 0 0" };
        assert_eq!(said(&one, from_ref(number)), expected, "{number:?}");
        assert_eq!(said(&two, &[number.clone(), number.clone()]), expected, "{number:?}");
        let open = if *gauge == 0 { "execute 1 5" } else { "fail 0 0" };
        assert_eq!(said(&two, &[Term::Unknown, number.clone()]), open, "{number:?}");
    }
}

/// The graph of an accepted sheet, which is checked too.
#[track_caller]
fn graph(sheet: &SheetTree) -> Vec<u8> {
    let bytes = sheet.bytes();
    let (built, mut buffer) = build(&bytes, enough(&bytes, None));
    let built = built.expect("a graph");
    buffer.truncate(built.bytes as usize);
    assert_eq!(check_graph(&bytes, &buffer), Ok(GraphSize { nodes: built.nodes }));
    buffer
}

/// The number cases of each switch of a graph, in the order of its nodes: gauge, ends and node.
fn cases(graph: &[u8]) -> Vec<Vec<(u8, u16, u16, u16)>> {
    let (graph, _) = GraphNodes::read(graph).expect("a graph");
    let number = |case: &Case| match case {
        Case::Numbers { gauge, low, high, node } => Some((*gauge, *low, *high, *node)),
        _ => None,
    };
    let switch = |node: &Node| match node {
        Node::Switch { cases, .. } => Some(cases.iter().filter_map(number).collect()),
        _ => None,
    };
    graph.nodes.iter().filter_map(switch).collect()
}

#[test]
fn a_whole_gauge_beside_the_next_one_has_a_case_of_its_own() {
    for gauge in [0, 1, 127, 253, 254] {
        let next = gauge + 1;
        let whole = rules(&[Pattern::Gauged(gauge, 0, 0xffff), Pattern::Gauged(next, 0, 0xffff)]);
        let cases = format!("46 {gauge:02x} 00 00 ff ff 00 01 46 {next:02x} 00 00 ff ff 00 02");
        let expected = format!("12 01 02 00 05 43 00 00 00 02 00 03 00 04 {cases} 42 01 42 02 40 41");
        assert_eq!(to_hex(&graph(&whole)), to_hex(&from_hex(&expected)));
        let at = |gauge, value| said(&whole, &[Term::Gauged(gauge, value)]);
        assert_eq!([at(gauge, 0), at(gauge, 0xffff)], ["commit 1 0"; 2]);
        assert_eq!([at(next, 0), at(next, 0xffff)], ["commit 2 0"; 2]);
        assert_eq!([at(next.wrapping_add(1), 0), at(gauge.wrapping_sub(1), 0xffff)], ["fail 0 0"; 2]);
    }
}

#[test]
fn a_range_to_the_end_of_a_gauge_and_one_from_the_start_of_the_next_are_cut_apart() {
    let two = rules(&[Pattern::Gauged(254, 5, 0xffff), Pattern::Gauged(255, 0, 9)]);
    // Nodes 1 to 3 are fail, execute 1 and execute 2; spans have no case, so that no case leads to both.
    let first = [(254, 0, 4, 1), (254, 0, 0xffff, 2), (254, 5, 0xffff, 2)];
    let second = [(255, 0, 9, 3), (255, 0, 0xffff, 3), (255, 10, 0xffff, 1)];
    assert_eq!(cases(&graph(&two)), [[first, second].concat()]);
}

#[test]
fn a_gauge_of_dropped_rules_has_no_case() {
    let rule = |id: u16, gauge: u8| vec![Pattern::Symbol(id), Pattern::Gauged(gauge, 5, 9)];
    let sheet = SheetTree { arity: 2, rules: [rule(1, 3), rule(1, 3), rule(2, 0), rule(2, 7)].to_vec() };
    let on = |cases: &Vec<(u8, u16, u16, u16)>| {
        let mut gauges: Vec<u8> = cases.iter().map(|case| case.0).collect();
        gauges.dedup();
        gauges
    };
    // Argument 1 has no number case; then after 1, after 2, and after an unknown.
    let gauges: Vec<Vec<u8>> = cases(&graph(&sheet)).iter().map(on).collect();
    assert_eq!(gauges, [vec![], vec![3], vec![0, 7], vec![0, 3, 7]]);
}

#[test]
fn where_only_gauges_are_named_numbers_on_gauge_0_and_spans_go_to_neither() {
    // Anything, or 2 to 3 on gauge 1: a case for each pair of runs.
    let trap = SheetTree::read(&from_hex("10010220270100020003")).expect("a sheet").0;
    let pairs = [
        ("0000 0001", 1),
        ("0000 0003", 2),
        ("0000 ffff", 2),
        ("0002 0003", 2),
        ("0002 ffff", 2),
        ("0004 ffff", 1),
    ];
    let cases: String = pairs.iter().map(|(ends, node)| format!("46 01 {ends} 000{node}")).collect();
    let expected = format!("12 01 02 00 03 43 00 00 00 06 00 01 00 02 {cases} 42 01 41");
    assert_eq!(to_hex(&graph(&trap)), to_hex(&from_hex(&expected)));
    for term in
        [Term::Number(2), Term::Gauged(0, 3), Term::Span(2, 3), Term::Span(0, 0xffff), Term::Gauged(2, 2)]
    {
        assert_eq!(said(&trap, from_ref(&term)), "commit 1 0", "{term:?}");
    }
    assert_eq!(said(&trap, &[Term::Gauged(1, 2)]), "suspend 0 0");
    assert_eq!(said(&trap, &[Term::Gauged(1, 4)]), "commit 1 0");
    assert_eq!(said(&trap, &[Term::Unknown]), "suspend 0 1");
}

#[test]
fn each_of_64_gauges_is_cut_by_itself() {
    // Every fourth gauge, the last of them 255, from the highest down.
    let gauge = |at: u16| 255 - 4 * at as u8;
    let sheet = rules(&(0..64).map(|at| Pattern::Gauged(gauge(at), at + 1, 1000)).collect::<Vec<_>>());
    let graph = graph(&sheet);
    let [root] = &cases(&graph)[..] else { panic!("one switch") };
    // Three runs of each gauge, and six pairs of them.
    assert_eq!(root.len(), 64 * 6);
    assert!(root.windows(2).all(|two| two[0] < two[1]), "{root:?}");
    assert_eq!(graph.len(), 5 + 9 + 64 * 6 * 8 + 64 * 2 + 2);
    for at in 0..64 {
        let rule = format!("commit {} 0", at + 1);
        for (value, expected) in [(at, "fail 0 0"), (at + 1, &rule), (1000, &rule), (1001, "fail 0 0")] {
            assert_eq!(said(&sheet, &[Term::Gauged(gauge(at), value)]), expected, "{at} {value}");
        }
        assert_eq!(said(&sheet, &[Term::Gauged(gauge(at) - 1, 500)]), "fail 0 0");
    }
}

#[test]
fn nested_ranges_on_4_gauges_are_answered_by_those_of_the_gauge() {
    for rules in [8, 32, 64] {
        let sheet = SheetTree::read(&known::gauges_1(rules)).expect("a sheet").0;
        for (gauge, value) in
            (0..5).flat_map(|gauge| [0, 1, 4, 5, 9, 500, 990, 1000].map(|value| (gauge, value)))
        {
            // Rule i + 1 takes i + 1 to 1000 - i on gauge i % 4.
            let takes = |i: &u16| i % 4 == u16::from(gauge) && i < &value && value <= 1000 - i;
            let takers: Vec<u16> = (0..rules).filter(takes).collect();
            let expected = match takers[..] {
                [] => "fail 0 0".to_string(),
                [only] => format!("commit {} 0", only + 1),
                _ => "suspend 0 0".to_string(),
            };
            assert_eq!(said(&sheet, &[Term::Gauged(gauge, value)]), expected, "{rules} {gauge} {value}");
        }
    }
}
