//! Spans (document 02, request 4): the shared vectors, which case a number or span follows, also on the graphs of other
//! makers, what is compared and tested, and the wait lists of suspended pieces.

use std::cmp::Reverse;
use voltunnis_tests::both::{check_graph, plain, walk};
use voltunnis_tests::bytes::from_hex;
use voltunnis_tests::generate::nodes::{graph_bytes, Case, Node};
use voltunnis_tests::generate::random::Random;
use voltunnis_tests::generate::trees::{piece_bytes, Term};
use voltunnis_tests::reference::own_graph;
use voltunnis_tests::request;
use voltunnis_tests::results::GraphSize;

/// The vectors of request 4, the example's graph and answers as request 6 makes them, number cases as request 7 does.
const VECTORS: &str = include_str!("../vectors/spans.txt");

#[test]
fn the_shared_vectors_are_met() {
    let calls: Vec<&str> = VECTORS.lines().map(|line| request::met(line, &["4", "6", "7"])).collect();
    assert_eq!(calls.len(), 20);
}

/// What the plain answer says of a sheet and a piece, and the walk on the sheet's graph, each with its fields.
fn said(sheet: &str, piece: &str) -> String {
    let (sheet, piece) = (from_hex(sheet), from_hex(piece));
    let answer = walk(&sheet, &own_graph(&sheet).expect("a graph"), &piece).expect("an answer");
    let plain = plain(&sheet, &piece).expect("an answer");
    assert_eq!((plain.word, plain.rule), (answer.walk.word, answer.walk.rule));
    answer.to_string()
}

#[test]
fn a_ranges_test_holds_inside_is_contradicted_outside_and_else_not_known() {
    let sheet = "10 01 01 22 00 05 00 09";
    for (ends, line) in [
        ("00 05 00 09", "commit 1 0 0000000000000000"),
        ("00 06 00 08", "commit 1 0 0000000000000000"),
        ("00 09 00 09", "commit 1 0 0000000000000000"),
        ("00 04 00 09", "execute 1 0 0000000000000001"),
        ("00 05 00 0a", "execute 1 0 0000000000000001"),
        ("00 00 ff ff", "execute 1 0 0000000000000001"),
        ("00 09 00 0a", "execute 1 0 0000000000000001"),
        ("00 00 00 04", "fail 0 0 0000000000000000"),
        ("00 0a 01 05", "fail 0 0 0000000000000000"),
        ("01 05 01 09", "fail 0 0 0000000000000000"),
    ] {
        assert_eq!(said(sheet, &format!("11 01 34 {ends}")), line, "{ends}");
    }
    for other in ["21 00 05", "23 00 05 01 20"] {
        let line = said(&format!("10 01 01 {other}"), "11 01 34 00 05 00 05");
        assert_eq!(line, "fail 0 0 0000000000000000", "{other}");
    }
    // A place below a span is lacking.
    let below = "10 01 02 23 00 01 01 21 00 01 23 00 01 01 21 00 02";
    assert_eq!(said(below, "11 01 34 00 00 ff ff"), "fail 0 1 0000000000000000");
}

#[test]
fn spans_are_compared_by_the_numbers_that_they_may_be() {
    let sheet = "10 02 01 24 00 24 00";
    let (commit, execute, fail) =
        ("commit 1 0 0000000000000000", "execute 1 0 0000000000000001", "fail 0 0 0000000000000000");
    for (one, other, line) in [
        ("34 00 01 00 02", "34 00 01 00 02", execute),
        ("34 00 01 00 02", "34 00 02 00 03", execute),
        ("34 00 01 00 02", "34 00 03 00 04", fail),
        ("34 00 05 00 05", "32 00 05", commit),
        ("34 00 05 00 05", "34 00 05 00 05", commit),
        ("34 00 05 00 05", "32 00 06", fail),
        ("34 00 05 00 06", "32 00 06", execute),
        ("34 00 05 00 06", "32 00 07", fail),
        ("34 00 05 00 06", "30", execute),
        ("34 00 05 00 05", "31 00 05", fail),
        ("34 00 00 ff ff", "33 00 05 01 30", fail),
        ("34 00 ff 01 00", "32 01 00", execute),
    ] {
        for (one, other) in [(one, other), (other, one)] {
            assert_eq!(said(sheet, &format!("11 02 {one} {other}")), line, "{one}, {other}");
            // In compounds likewise, beside an equal and a different part.
            let both = format!("11 02 33 00 01 02 31 00 07 {one} 33 00 01 02 31 00 07 {other}");
            assert_eq!(said(sheet, &both), line, "{one}, {other} in compounds");
            let apart = format!("11 02 33 00 01 02 {one} 31 00 07 33 00 01 02 {other} 31 00 08");
            assert_eq!(said(sheet, &apart), fail, "{one}, {other} beside a difference");
        }
    }
}

#[test]
fn a_number_or_span_follows_the_narrowest_case() {
    // Anything, or 4: a number that no rule accepts has a case of its own.
    assert_eq!(said("100102202200040004", "1101320005"), "commit 1 1 0000000000000000");
    assert_eq!(said("100102202200040004", "1101320004"), "suspend 0 1 0000000000000000");
    assert_eq!(said("100102220002000220", "11013400020003"), "suspend 0 1 0000000000000001");
    // Nodes 1 to 4 execute rules 1 to 4; the cases overlap.
    let sheet = from_hex("10 01 04 22 00 00 00 09 20 20 20");
    let cases =
        "46 00 00 00 00 09 00 01 46 00 00 02 00 05 00 02 46 00 00 02 00 08 00 03 46 00 00 04 00 04 00 04";
    let graph = format!("12 01 04 00 06 43 00 00 00 04 00 05 00 05 {cases} 42 01 42 02 42 03 42 04 41");
    for (ends, rule) in [
        ("00 00 00 09", 1),
        ("00 02 00 05", 2),
        ("00 03 00 04", 2),
        ("00 04 00 04", 4),
        ("00 04 00 06", 3),
        ("00 08 00 08", 3),
        ("00 08 00 09", 1),
        ("00 09 00 09", 1),
        ("00 01 00 05", 1),
        ("00 04 00 0a", 0),
        ("00 0a ff ff", 0),
    ] {
        let piece = from_hex(&format!("11 01 34 {ends}"));
        let answer = walk(&sheet, &from_hex(&graph), &piece).expect("an answer");
        assert_eq!(answer.walk.rule, rule, "{ends}");
    }
}

/// The node of the case that has the highest low, then the lowest high, of those that contain both ends.
fn narrowest(ends: &[(u16, u16)], low: u16, high: u16) -> Option<usize> {
    let contains = |at: &usize| ends[*at].0 <= low && high <= ends[*at].1;
    (0..ends.len()).filter(contains).max_by_key(|at| (ends[*at].0, Reverse(ends[*at].1)))
}

/// Ends of so many cases at most, ascending, of any lows or of few.
fn some_ends(random: &mut Random, most: usize) -> Vec<(u16, u16)> {
    let reach = random.pick(&[8, 40, 1000, 0x10000]);
    let lows = random.pick(&[2, 5, reach]);
    let mut two = || {
        let low = random.below(lows.min(reach)) * (reach / lows.min(reach));
        let high = random.between(low, reach - 1);
        (low as u16, high as u16)
    };
    let mut ends: Vec<(u16, u16)> = (0..most).map(|_| two()).collect();
    ends.sort_unstable();
    ends.dedup();
    ends
}

#[test]
fn on_any_accepted_graph_the_narrowest_case_is_followed() {
    // 64 rules, so that up to 63 cases are known by their rules, more modulo 63; the first wants a range.
    let sheet = [&from_hex("10 01 40 22 00 00 ff ff")[..], &[0x20; 63]].concat();
    let mut random = Random::new(0x6e61_7272);
    let (mut taken, mut neither) = (0, 0);
    for round in 0..3_000 {
        let ends = some_ends(&mut random, if round % 50 == 0 { 600 } else { 40 });
        let rule = |at: usize| at % 63 + 2;
        let numbers = |(at, &(low, high)): (usize, &(u16, u16))| Case::Numbers {
            gauge: 0,
            low,
            high,
            node: rule(at) as u16,
        };
        let symbols = (0..round % 3).map(|id| Case::Symbols { low: id, high: id, node: 1 });
        let cases = symbols.chain(ends.iter().enumerate().map(numbers)).collect();
        let mut nodes = vec![Node::Switch { place: 0, neither: 1, unknown: 1, cases }];
        nodes.extend((1..=64).map(Node::Execute));
        let graph = graph_bytes(1, 64, &nodes);
        assert_eq!(check_graph(&sheet, &graph), Ok(GraphSize { nodes: 65 }));
        for _ in 0..8 {
            let (one, other) = (random.pick(&ends), random.pick(&ends));
            let near = |random: &mut Random, end: u16| match random.below(3) {
                0 => end,
                1 => end.saturating_sub(1),
                _ => end.saturating_add(1),
            };
            let (one, other) = (near(&mut random, one.0), near(&mut random, other.1));
            let (low, high) = (one.min(other), one.max(other));
            let (low, high) = if random.percent(30) { (low, low) } else { (low, high) };
            let term =
                if low == high && random.percent(50) { Term::Number(low) } else { Term::Span(low, high) };
            let answer = walk(&sheet, &graph, &piece_bytes(&[term])).expect("an answer");
            let expected = narrowest(&ends, low, high);
            assert_eq!(usize::from(answer.walk.rule), expected.map_or(1, rule), "{ends:?} {low} {high}");
            *(if expected.is_some() { &mut taken } else { &mut neither }) += 1;
        }
    }
    println!("{taken} cases taken, {neither} times neither");
    assert!(taken >= 10_000 && neither >= 1_000, "{taken} {neither}");
}

#[test]
fn a_place_met_is_listed_if_its_span_is_partly_inside_the_range_of_a_rule_live_there() {
    // (1..9, _) and (_, _) and (2..9, 1): a span of 2 to 9 is inside both ranges, one of 1 to 9 partly in rule 3's.
    let sheet = "10 02 03 22 00 01 00 09 20 20 20 22 00 02 00 09 22 00 01 00 01";
    assert_eq!(said(sheet, "11 02 34 00 02 00 09 32 00 01"), "suspend 0 1 0000000000000000");
    assert_eq!(said(sheet, "11 02 34 00 01 00 09 32 00 01"), "suspend 0 1 0000000000000001");
    // A rule that a test met before contradicts is not live there: argument 1 drops rule 3, which alone has a range
    // at argument 2 that the span is partly inside of.
    let sheet = "10 02 03 20 22 00 00 ff ff 20 20 21 00 01 22 00 05 00 09";
    assert_eq!(said(sheet, "11 02 31 00 01 34 00 04 00 09"), "suspend 0 2 0000000000000002");
    assert_eq!(said(sheet, "11 02 31 00 02 34 00 04 00 09"), "suspend 0 2 0000000000000000");
    // On another maker's graph that asks argument 2 first, it is live there.
    let graph = "12 02 03 00 03 43 00 55 00 01 00 01 00 01 46 00 00 00 ff ff 00 01 \
                 43 00 00 00 01 00 02 00 02 44 00 01 00 01 00 02 41";
    let piece = from_hex("11 02 31 00 02 34 00 04 00 09");
    let answer = walk(&from_hex(sheet), &from_hex(graph), &piece).expect("an answer");
    assert_eq!(answer.to_string(), "suspend 0 2 0000000000000002");
}
