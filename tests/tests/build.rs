//! Building: graphs byte for byte, questions 18 and 19 at their limits, the bytes of the buffer after
//! the graph, and the whole buffer on refusals.

use voltunnis_tests::both::{build, enough, lent, rewrite};
use voltunnis_tests::bytes::from_hex;
use voltunnis_tests::generate::known;
use voltunnis_tests::reference::build::{nodes, nodes_up_to, MOST_BUILT};
use voltunnis_tests::reference::nodes::{Case, Node};
use voltunnis_tests::reference::sheet::Sheet;
use voltunnis_tests::results::{Built, Written};
use voltunnis_tests::vectors;

/// The graph of an accepted sheet, from a buffer that is larger.
#[track_caller]
fn graph(sheet: &[u8]) -> (Built, Vec<u8>) {
    let len = enough(sheet, None);
    let (result, mut buffer) = build(sheet, len);
    let built = result.expect("a graph");
    let bytes = built.bytes as usize;
    assert!(buffer[bytes..] == lent(len)[bytes..], "a byte after the graph");
    buffer.truncate(bytes);
    (built, buffer)
}

/// Builds to a buffer of this length and is refused; no byte of it changes.
#[track_caller]
fn refused(sheet: &[u8], len: usize, refusal: u8) {
    let (result, buffer) = build(sheet, len);
    assert_eq!(result, Err(refusal));
    assert!(buffer == lent(len), "a byte changed on a refusal");
}

/// The sheet's graph, of this size, fits a buffer of as many bytes and no shorter one, and is written
/// again as it is.
#[track_caller]
fn has_size(sheet: &[u8], nodes: u16, bytes: u32) -> Vec<u8> {
    let size = Built { nodes, bytes };
    let (built, graph) = graph(sheet);
    assert_eq!(built, size);
    assert!(build(sheet, graph.len()) == (Ok(size), graph.clone()), "other bytes in an exact buffer");
    for len in [0, 1, 4, 5, graph.len() - 1] {
        refused(sheet, len, 19);
    }
    assert!(rewrite(sheet, &graph, graph.len()) == (Ok(Written { bytes }), graph.clone()), "not as it is");
    graph
}

#[test]
fn the_vectors_graphs_are_built() {
    for vector in vectors::all() {
        let (_, nodes) = vector.sheet_says();
        let graph = has_size(&vector.sheet, nodes, vector.graph.len() as u32);
        assert_eq!(graph, vector.graph, "{}", vector.name);
    }
}

#[test]
fn leaves_alone_are_graphs() {
    assert_eq!(has_size(&from_hex("10 03 00"), 1, 6), from_hex("12 03 00 00 01 40"));
    assert_eq!(has_size(&from_hex("10 01 01 20"), 1, 7), from_hex("12 01 01 00 01 42 01"));
    assert_eq!(has_size(&from_hex("10 01 02 20 20"), 1, 6), from_hex("12 01 02 00 01 41"));
}

#[test]
fn two_rules_without_pending_tests_suspend_beside_one_with_some() {
    let graph = has_size(&from_hex("10 01 03 20 20 21 00 01"), 1, 6);
    assert_eq!(graph, from_hex("12 01 03 00 01 41"));
}

#[test]
fn each_pair_of_runs_of_the_same_live_rules_is_a_case() {
    // The runs are 0, 1 to 2, 3 to 5, 6 to 9 and 10 to 65,535; 0 and the last are accepted by no rule.
    let (_, graph) = graph(&from_hex("10 01 02 22 00 01 00 09 22 00 03 00 05"));
    let ends =
        [("00 00", "00 00"), ("00 01", "00 02"), ("00 03", "00 05"), ("00 06", "00 09"), ("00 0a", "ff ff")];
    // Nodes 1, 2 and 3 are fail, execute 1 and suspend.
    let nodes = [&[1, 2, 3, 3, 3][..], &[2, 3, 3, 3], &[3, 3, 3], &[2, 2], &[1]];
    let mut cases = String::new();
    for (first, row) in nodes.iter().enumerate() {
        for (last, node) in row.iter().enumerate() {
            cases += &format!("46 00 {} {} 00 0{node}", ends[first].0, ends[first + last].1);
        }
    }
    assert_eq!(graph, from_hex(&format!("12 01 02 00 04 43 00 00 00 0f 00 01 00 03 {cases} 40 42 01 41")));
}

#[test]
fn runs_begin_at_0_and_end_at_65535() {
    // Ranges that begin at 0 and end at 65,535 leave no run before or after them.
    let (_, graph) = graph(&from_hex("10 01 02 22 00 00 00 04 22 00 05 ff ff"));
    let cases = "46 00 00 00 00 04 00 01 46 00 00 00 ff ff 00 02 46 00 00 05 ff ff 00 03";
    assert_eq!(
        graph,
        from_hex(&format!("12 01 02 00 05 43 00 00 00 03 00 04 00 02 {cases} 42 01 41 42 02 40"))
    );
}

#[test]
fn without_a_range_of_a_live_rule_there_is_no_number_case() {
    // f(1, 0..9), f(2, 3) and f(2, 4) in symbols: after 2 only symbols are wanted.
    let rules = "21 00 01 22 00 00 00 09 21 00 02 21 00 03 21 00 02 21 00 04";
    let (_, graph) = graph(&from_hex(&format!("10 02 03 {rules}")));
    let symbols = from_hex("43 00 55 00 02 00 03 00 07 44 00 03 00 03 00 05 44 00 04 00 04 00 06");
    assert!(graph.windows(symbols.len()).any(|part| part == symbols), "{graph:02x?}");
}

#[test]
fn a_rule_that_is_dropped_cuts_no_numbers() {
    // f(1, 1..9), f(1, 1..9) and f(2, 3..5) in symbols: after 1 the numbers 1 to 9 are one run.
    let rules = "21 00 01 22 00 01 00 09 21 00 01 22 00 01 00 09 21 00 02 22 00 03 00 05";
    let (_, graph) = graph(&from_hex(&format!("10 02 03 {rules}")));
    let nodes = nodes(&Sheet::read(&from_hex(&format!("10 02 03 {rules}"))).expect("a sheet"));
    let Ok([Node::Switch { cases, .. }, Node::Switch { cases: after, .. }, ..]) = nodes.as_deref() else {
        panic!("two switches first: {graph:02x?}")
    };
    let ends = |case: &Case| match case {
        Case::Numbers { low, high, .. } => (*low, *high),
        _ => panic!("a case of numbers"),
    };
    assert_eq!(cases.len(), 2);
    let all: Vec<(u16, u16)> = after.iter().map(ends).collect();
    assert_eq!(all, [(0, 0), (0, 9), (0, 0xffff), (1, 9), (1, 0xffff), (10, 0xffff)]);
}

#[test]
fn question_18_asks_for_at_most_1024_nodes() {
    has_size(&known::nodes_1024(), 1024, 32_730);
    let sheet = known::nodes_1025();
    let read = Sheet::read(&sheet).expect("an accepted sheet");
    assert_eq!(nodes_up_to(&read, 2000).map(|nodes| nodes.len()), Ok(1025));
    for len in [0, 1, 100, 20_000] {
        refused(&sheet, len, 18);
    }
}

#[test]
fn question_18_comes_after_the_sheets() {
    let mut long = known::nodes_1025();
    long.push(0x20);
    refused(&long, 20_000, 10);
    refused(&[], 0, 1);
    refused(&from_hex("10 01 01 21"), 10, 4);
}

#[test]
fn a_switch_of_a_built_graph_has_up_to_8385_cases() {
    for (rules, count) in [(32, 2_145), (64, 8_385)] {
        let graph = has_size(&known::nested_1(rules), 4, 5 + 9 + count * 8 + 2 + 1 + 1);
        assert_eq!(u32::from(u16::from_be_bytes([graph[8], graph[9]])), count);
    }
    // Of 8 places each is asked with all rules live once, here with ranges from 0 on.
    for (rules, count) in [(8, 136), (16, 528), (32, 2_080)] {
        let all = nodes(&Sheet::read(&known::nested_8(rules)).expect("a sheet")).expect("a graph");
        let most = |node: &Node| matches!(node, Node::Switch { cases, .. } if cases.len() == count);
        assert_eq!(all.iter().filter(|node| most(node)).count(), 8);
    }
}

#[test]
fn graphs_may_have_many_bytes() {
    has_size(&known::nested_8(16), 109, 180_187);
    has_size(&known::nested_16(16), 335, 382_857);
    has_size(&known::nested_8(32), 221, 1_329_291);
    has_size(&known::nested_16(32), 687, 2_832_713);
    has_size(&known::gauges_8(32), 210, 157_051);
}

#[test]
fn the_longest_known_graphs_are_built() {
    for (sheet, nodes, bytes) in
        [(known::longest_32(), 999, 5_512_655), (known::longest_64(), 1015, 23_778_999)]
    {
        let (result, graph) = build(&sheet, bytes as usize);
        assert_eq!(result, Ok(Built { nodes, bytes }));
        assert_eq!(graph[..5], [0x12, sheet[1], sheet[2], (nodes >> 8) as u8, nodes as u8]);
        refused(&sheet, bytes as usize - 1, 19);
    }
}

/// The number that the header defines by this name.
fn defined(name: &str) -> usize {
    let lines = include_str!("../../include/voltunnis.h").lines();
    let mut words = lines.map(|line| line.split_whitespace().collect::<Vec<_>>());
    let number = words.find_map(|words| match words[..] {
        ["#define", defined, number] if defined == name => number.parse().ok(),
        _ => None,
    });
    number.expect(name)
}

#[test]
fn the_most_bytes_of_graphs_are_said_by_header_and_crate() {
    let most = |cases: usize| 5 + 1024 * (9 + 8 * cases);
    for said in [defined("VT_MOST_BUILT_BYTES"), voltunnis::MOST_BUILT_BYTES, MOST_BUILT] {
        assert_eq!(said, most(8_385));
    }
    for said in [defined("VT_MOST_BYTES"), voltunnis::MOST_BYTES] {
        assert_eq!(said, most(65_535));
    }
}

#[test]
fn sheets_have_graphs_of_the_known_size() {
    has_size(&known::example(), 6, 51);
    has_size(&known::eight_alike(), 39, 390);
    has_size(&known::marked(), 13, 606);
    has_size(&known::coins(8), 80, 16_137);
    has_size(&known::coins(16), 312, 164_697);
    has_size(&known::coins(28), 960, 1_232_197);
    has_size(&known::zeros_and_ones(32), 907, 48_290);
    has_size(&known::series_4(32), 191, 7_301);
    has_size(&known::gauges_1(32), 7, 4_920);
    has_size(&known::gauges_1(64), 7, 17_976);
}

#[test]
fn many_ranges_apart_have_too_many_nodes() {
    for (rules, count) in [(32, 1_256), (64, 5_064)] {
        let sheet = known::coins(rules);
        let read = Sheet::read(&sheet).expect("an accepted sheet");
        assert_eq!(nodes_up_to(&read, 6_000).map(|nodes| nodes.len()), Ok(count));
        refused(&sheet, 100, 18);
    }
}
