//! The questions at a graph, 21 to 25: each at its exact limit, which of two comes first, and random
//! graphs, built, of other makers, mangled and damaged.

use voltunnis_tests::both::check_graph;
use voltunnis_tests::bytes::from_hex;
use voltunnis_tests::generate::damage::damaged;
use voltunnis_tests::generate::graphs::graph;
use voltunnis_tests::generate::random::Random;
use voltunnis_tests::generate::sheets::sheet;
use voltunnis_tests::reference::build::nodes;
use voltunnis_tests::reference::nodes::{graph_bytes, Case, Node};
use voltunnis_tests::reference::sheet::Sheet;
use voltunnis_tests::results::GraphSize;

/// f(X, X) and f(1, 2): place tests at 0 and 85, one pair.
const EXAMPLE: &str = "10 02 02 24 00 24 00 21 00 01 21 00 02";

/// f(X, X) alone: one pair, no place test.
const PAIR: &str = "10 02 01 24 00 24 00";

#[track_caller]
fn refused(sheet: &str, graph: &str, refusal: u8) {
    assert_eq!(check_graph(&from_hex(sheet), &from_hex(graph)), Err(refusal), "{graph}");
}

#[track_caller]
fn accepted(sheet: &str, graph: &str, nodes: u16) {
    assert_eq!(check_graph(&from_hex(sheet), &from_hex(graph)), Ok(GraphSize { nodes }), "{graph}");
}

/// What is said about the example's graph with two nodes, this one and a suspend.
#[track_caller]
fn node(hex: &str, expected: Result<u16, u8>) {
    let graph = format!("12 02 02 00 02 {hex} 41");
    match expected {
        Ok(nodes) => accepted(EXAMPLE, &graph, nodes),
        Err(refusal) => refused(EXAMPLE, &graph, refusal),
    }
}

/// The same with a switch at place 0 that has these cases.
#[track_caller]
fn cases(cases: &[&str], expected: Result<u16, u8>) {
    node(&format!("43 00 00 {:04x} 00 00 00 01 {}", cases.len(), cases.concat()), expected);
}

#[test]
fn question_21_asks_for_a_header_that_fits_the_sheet() {
    for graph in ["", "12", "12 02 02 00", "11 02 02 00 01 41", "12 01 02 00 01 41", "12 02 03 00 01 41"] {
        refused(EXAMPLE, graph, 21);
    }
    refused(EXAMPLE, "12 02 02 00 00", 21);
    accepted(EXAMPLE, "12 02 02 00 01 41", 1);
    accepted(EXAMPLE, &format!("12 02 02 04 00 {}", "41".repeat(1024)), 1024);
    refused(EXAMPLE, &format!("12 02 02 04 01 {}", "41".repeat(1025)), 21);
    refused(EXAMPLE, "12 02 02 ff ff", 21);
    accepted("10 08 00", "12 08 00 00 01 40", 1);
}

#[test]
fn question_22_asks_for_whole_records_of_the_right_kinds() {
    for kind in (0..=0xff).filter(|kind| !(0x40..=0x43).contains(kind) && *kind != 0x47) {
        node(&format!("{kind:02x} 00 00 00 00 00 00 00 00 00"), Err(22));
    }
    node("43 00 00 00 00 00 00 00 01", Err(22));
    for kind in (0..=0xff).filter(|kind| !(0x44..=0x46).contains(kind)) {
        cases(&[&format!("{kind:02x} 00 00 00 00 00 00")], Err(22));
    }
    for whole in [
        "42 01",
        "43 00 00 00 01 00 00 00 00 44 00 01 00 01 00 00",
        "43 00 00 00 02 00 00 00 00 45 00 01 02 00 00 46 00 00 01 00 02 00 00",
        "47 00 00 00 55 00 00 00 00",
    ] {
        let graph = from_hex(&format!("12 02 02 00 01 {whole}"));
        assert_eq!(check_graph(&from_hex(EXAMPLE), &graph), Ok(GraphSize { nodes: 1 }));
        for cut in 5..graph.len() {
            assert_eq!(check_graph(&from_hex(EXAMPLE), &graph[..cut]), Err(22), "{whole} cut to {cut}");
        }
    }
    refused(EXAMPLE, "12 02 02 00 02 41", 22);
}

#[test]
fn question_23_asks_for_nodes_and_rules_in_range() {
    node("42 00", Err(23));
    node("42 01", Ok(2));
    node("42 02", Ok(2));
    node("42 03", Err(23));
    refused("10 02 00", "12 02 00 00 01 42 00", 23);
    refused("10 02 00", "12 02 00 00 01 42 01", 23);
    node("43 00 00 00 01 00 01 00 01 44 00 01 00 01 00 01", Ok(2));
    node("43 00 00 00 01 00 02 00 01 44 00 01 00 01 00 01", Err(23));
    node("43 00 00 00 01 00 01 00 02 44 00 01 00 01 00 01", Err(23));
    node("43 00 00 00 01 00 01 00 01 44 00 01 00 01 00 02", Err(23));
    node("43 00 00 00 01 00 01 00 01 45 00 01 01 ff ff", Err(23));
    node("43 00 00 00 01 00 01 00 01 46 00 00 01 00 02 01 00", Err(23));
    node("47 00 00 00 55 00 01 00 01", Ok(2));
    node("47 00 00 00 55 00 02 00 01", Err(23));
    node("47 00 00 00 55 00 01 00 02", Err(23));
}

#[test]
fn question_23_asks_for_a_test_of_the_sheet() {
    node("43 00 55 00 01 00 00 00 00 44 00 01 00 01 00 00", Ok(2));
    for place in ["00 01", "00 54", "00 aa", "02 a8", "ff ff"] {
        node(&format!("43 {place} 00 01 00 00 00 00 44 00 01 00 01 00 00"), Err(23));
    }
    for pair in ["00 55 00 00", "00 00 00 00", "00 00 00 aa", "00 55 00 55"] {
        node(&format!("47 {pair} 00 00 00 00"), Err(23));
    }
    // A place that stands only in a pair has no place test.
    refused(PAIR, "12 02 01 00 01 43 00 00 00 01 00 00 00 00 44 00 01 00 01 00 00", 23);
    accepted(PAIR, "12 02 01 00 01 47 00 00 00 55 00 00 00 00", 1);
}

#[test]
fn question_24_asks_for_cases_in_order() {
    let (symbol, compound) = ("44 00 05 00 05 00 01", "45 00 05 02 00 01");
    let numbers = "46 00 00 05 00 09 00 01";
    cases(&[symbol, compound, numbers], Ok(2));
    for wrong in [[compound, symbol], [numbers, symbol], [numbers, compound], [symbol, symbol]] {
        cases(&wrong, Err(24));
    }
    cases(&["44 00 ff 00 ff 00 01", "44 01 00 01 00 00 01"], Ok(2));
    cases(&["44 01 00 01 00 00 01", "44 00 ff 00 ff 00 01"], Err(24));
    cases(&[compound, "45 00 05 03 00 01", "45 00 06 01 00 01"], Ok(2));
    cases(&[compound, "45 00 05 01 00 01"], Err(24));
    cases(&["45 00 06 01 00 01", compound], Err(24));
    cases(&[compound, compound], Err(24));
    cases(&["45 00 05 00 00 01", "45 00 05 ff 00 01"], Ok(2));
}

#[test]
fn question_24_asks_for_numbers_that_ascend_by_low_then_high() {
    let numbers = "46 00 00 05 00 09 00 01";
    for after in ["00 05 00 0a", "00 05 ff ff", "00 06 00 07", "00 09 00 0a", "00 0a 00 0a", "ff ff ff ff"] {
        cases(&[numbers, &format!("46 00 {after} 00 00")], Ok(2));
    }
    for before in ["00 05 00 09", "00 05 00 08", "00 05 00 05", "00 04 00 0a", "00 04 ff ff", "00 00 00 04"] {
        cases(&[numbers, &format!("46 00 {before} 00 00")], Err(24));
        cases(
            &[&format!("46 00 {before} 00 00"), numbers],
            if before == "00 05 00 09" { Err(24) } else { Ok(2) },
        );
    }
    cases(&["46 00 00 05 00 04 00 01"], Err(24));
    cases(&[numbers, "46 00 00 07 00 06 00 01"], Err(24));
    cases(&["46 00 00 05 00 05 00 01"], Ok(2));
    cases(&["46 00 00 00 ff ff 00 01"], Ok(2));
    cases(&["46 00 00 00 00 00 00 01", "46 00 00 00 ff ff 00 01", "46 00 ff ff ff ff 00 01"], Ok(2));
    // High bytes count: 256 comes after 255, in low and in high.
    cases(&["46 00 00 ff 01 00 00 01", "46 00 01 00 01 00 00 01"], Ok(2));
    cases(&["46 00 01 00 01 00 00 01", "46 00 00 ff 01 00 00 01"], Err(24));
    cases(&["46 00 00 00 00 ff 00 01", "46 00 00 00 01 00 00 01"], Ok(2));
    cases(&["46 00 00 00 01 00 00 01", "46 00 00 00 00 ff 00 01"], Err(24));
}

#[test]
fn question_24_asks_for_numbers_by_gauge_first() {
    let on = |gauge: &str, ends: &str| format!("46 {gauge} {ends} 00 01");
    let (low, high) = ("00 00 00 04", "00 05 00 09");
    for (first, second) in [("00", "01"), ("01", "02"), ("7f", "80"), ("00", "ff"), ("fe", "ff")] {
        // The same ends, a lower low, and overlapping ones: whatever they are, the lower gauge comes first.
        for (one, other) in [(low, low), (high, low), (low, high), ("00 00 ff ff", "00 00 00 00")] {
            cases(&[&on(first, one), &on(second, other)], Ok(2));
            cases(&[&on(second, other), &on(first, one)], Err(24));
        }
        cases(&[&on(first, low), &on(first, high), &on(second, low), &on(second, high)], Ok(2));
        cases(&[&on(first, low), &on(second, low), &on(first, high), &on(second, high)], Err(24));
    }
    for gauge in ["00", "01", "80", "ff"] {
        cases(&[&on(gauge, low), &on(gauge, low)], Err(24));
        cases(&[&on(gauge, high), &on(gauge, low)], Err(24));
        cases(&[&on(gauge, "00 05 00 04")], Err(24));
        cases(&[&on(gauge, "00 00 ff ff"), &on(gauge, "ff ff ff ff")], Ok(2));
        cases(&["45 ff ff ff 00 01", &on(gauge, low)], Ok(2));
        cases(&[&on(gauge, low), "45 00 00 01 00 01"], Err(24));
        cases(&[&format!("46 {gauge} {low} 00 02")], Err(23));
    }
}

#[test]
fn question_25_asks_that_no_bytes_are_left() {
    refused(EXAMPLE, "12 02 02 00 01 41 41", 25);
    refused(EXAMPLE, "12 02 02 00 02 42 01 41 00", 25);
}

#[test]
fn questions_come_node_by_node_in_number_order() {
    // A wrong place and then a cut case; a wrong place and cases out of order.
    refused(EXAMPLE, "12 02 02 00 01 43 00 01 00 01 00 00 00 00 44 00 01 00 01 00", 22);
    refused(
        EXAMPLE,
        "12 02 02 00 01 43 00 01 00 02 00 00 00 00 44 00 02 00 02 00 00 44 00 01 00 01 00 00",
        23,
    );
    // The first node's cases out of order, the second of a wrong kind; and the other way round.
    refused(
        EXAMPLE,
        "12 02 02 00 02 43 00 00 00 02 00 00 00 00 44 00 02 00 02 00 00 44 00 01 00 01 00 00 48",
        24,
    );
    refused(EXAMPLE, "12 02 02 00 02 48", 22);
    refused(EXAMPLE, "12 02 02 00 02 42 00 48", 23);
    // The sheet's own questions come first.
    refused("10 02", "12", 1);
    refused("10 02 00 20", "12", 10);
}

/// A switch at place 0 of the example with so many number cases, each pair of these ends in turn.
fn switch_of(count: usize) -> Node {
    let pairs = (0..363).flat_map(|low| (low..363).map(move |high| (low, high)));
    let cases: Vec<Case> =
        pairs.take(count).map(|(low, high)| Case::Numbers { gauge: 0, low, high, node: 0 }).collect();
    assert_eq!(cases.len(), count);
    Node::Switch { place: 0, neither: 0, unknown: 0, cases }
}

#[test]
fn a_switch_may_have_65535_cases() {
    let sheet = from_hex(EXAMPLE);
    for count in [1, 255, 256, 257, 2_145, 8_385, 65_535] {
        let graph = graph_bytes(2, 2, &[switch_of(count)]);
        assert_eq!(graph[8..10], (count as u16).to_be_bytes());
        assert_eq!(check_graph(&sheet, &graph), Ok(GraphSize { nodes: 1 }), "{count} cases");
        assert_eq!(check_graph(&sheet, &graph[..graph.len() - 1]), Err(22), "{count} cases, the last cut");
        // A case that is not counted is left over, one that is counted and not there is cut.
        for (other, refusal) in [(count - 1, if count == 1 { 22 } else { 25 }), (count + 1, 22)] {
            let mut wrong = graph.clone();
            let Ok(other) = u16::try_from(other) else { continue };
            wrong[8..10].copy_from_slice(&other.to_be_bytes());
            assert_eq!(check_graph(&sheet, &wrong), Err(refusal), "{other} counted, {count} there");
        }
        // The last case counts too: twice, or to a node that is not there.
        let end = graph.len() - 8;
        let mut far = graph.clone();
        far[end + 7] = 1;
        assert_eq!(check_graph(&sheet, &far), Err(23), "{count} cases");
        if count > 1 {
            let mut twice = graph.clone();
            twice.copy_within(end - 8..end, end);
            assert_eq!(check_graph(&sheet, &twice), Err(24), "{count} cases");
        }
    }
}

#[test]
fn library_and_reference_agree_on_random_graphs() {
    let mut random = Random::new(0x6772_6170);
    let mut refusals = [0; 28];
    for _ in 0..30_000 {
        let mut sheet_bytes = sheet(&mut random).bytes();
        let Ok(sheet) = Sheet::read(&sheet_bytes) else {
            continue;
        };
        let graph = graph(&mut random, &sheet.asked(), || nodes(&sheet).ok());
        if random.percent(2) {
            sheet_bytes = damaged(&mut random, &sheet_bytes);
        }
        let result = check_graph(&sheet_bytes, &graph);
        refusals[usize::from(result.err().unwrap_or(0))] += 1;
    }
    println!("by refusal {refusals:?}");
    for refusal in [0, 21, 22, 23, 24, 25] {
        assert!(refusals[refusal] >= 100, "{refusal}: {} calls", refusals[refusal]);
    }
}
