//! Graphs of before request 7 (document 02), with a gauge of 0 put in each number case: those that the library built are
//! the graphs of today, and those of other makers are walked as before. `vectors/graphs_before_gauges.txt` says what the
//! library wrote and answered then. As they are, almost all are refused; one is taken for another graph.

use voltunnis_tests::both::{build, build_ordered, check_graph, enough, rewrite, walk};
use voltunnis_tests::bytes::{from_hex, to_hex};
use voltunnis_tests::count::Count;
use voltunnis_tests::generate::graphs::foreign;
use voltunnis_tests::generate::nodes::{graph_bytes, Case, GraphNodes, Node};
use voltunnis_tests::generate::orders::{reversed, table};
use voltunnis_tests::generate::random::Random;
use voltunnis_tests::generate::sheets::sheet;
use voltunnis_tests::generate::trees::{all, Pattern, SheetTree};
use voltunnis_tests::lift::{lift, lower};
use voltunnis_tests::reference::own_graph;
use voltunnis_tests::reference::sheet::Sheet;
use voltunnis_tests::results::GraphSize;

/// After a line of words a line for each call and what was said.
const BEFORE: &str = include_str!("../vectors/graphs_before_gauges.txt");

/// How many number cases a graph has.
fn numbers(graph: &[u8]) -> usize {
    let (graph, rest) = GraphNodes::read(graph).expect("a graph");
    assert!(rest.is_empty());
    let of = |node: &Node| match node {
        Node::Switch { cases, .. } => {
            cases.iter().filter(|case| matches!(case, Case::Numbers { .. })).count()
        }
        _ => 0,
    };
    graph.nodes.iter().map(of).sum()
}

/// A graph that the library wrote is, lifted, the one that is built today.
fn is_built(sheet: &[u8], before: &[u8], order: Option<&[u8]>) {
    let lifted = lift(before).expect("a graph of before");
    let (built, mut buffer) = match order {
        None => build(sheet, enough(sheet, None)),
        Some(order) => build_ordered(sheet, order, enough(sheet, Some(order))),
    };
    buffer.truncate(built.expect("a graph").bytes as usize);
    assert_eq!(to_hex(&buffer), to_hex(&lifted), "{}", to_hex(sheet));
    assert_eq!(lower(&buffer).map(|bytes| to_hex(&bytes)), Some(to_hex(before)), "{}", to_hex(sheet));
    assert_eq!(lifted.len(), before.len() + numbers(&lifted));
}

/// Another maker's graph is, lifted, accepted and written again as it is, and the walk says what it said before.
fn is_walked(sheet: &[u8], before: &[u8], piece: &[u8], said: &str) {
    let lifted = lift(before).expect("a graph of before");
    let what = || format!("sheet {} graph {} piece {}", to_hex(sheet), to_hex(&lifted), to_hex(piece));
    assert!(check_graph(sheet, &lifted).is_ok(), "{}", what());
    assert_eq!(to_hex(&rewrite(sheet, &lifted, lifted.len()).1), to_hex(&lifted), "{}", what());
    let answer = walk(sheet, &lifted, piece);
    let line = answer.map_or_else(|refusal| format!("refused {refusal}"), |answer| answer.to_string());
    assert_eq!(line, said, "{}", what());
}

#[test]
fn graphs_of_before_with_a_gauge_of_0_in_each_number_case_are_those_of_today() {
    let mut count = Count::default();
    let order = table(&reversed());
    for line in BEFORE.lines().skip(1) {
        let words: Vec<&str> = line.split('|').collect();
        match words[..] {
            ["build", sheet, graph] => is_built(&from_hex(sheet), &from_hex(graph), None),
            ["ordered", sheet, graph] => is_built(&from_hex(sheet), &from_hex(graph), Some(&order)),
            ["walk", sheet, graph, piece, said] => {
                is_walked(&from_hex(sheet), &from_hex(graph), &from_hex(piece), said);
                count.met(said.split(' ').next().unwrap_or_default());
            }
            _ => panic!("not a call and what was said: {line}"),
        }
        count.met(words[0]);
    }
    count.print();
    count.often(10, ["build", "ordered", "commit", "execute", "suspend", "fail", "refused"]);
}

/// Whether a sheet names no gauge.
fn is_older(tree: &SheetTree) -> bool {
    !tree.rules.iter().flat_map(|rule| all(rule)).any(|pattern| matches!(pattern, Pattern::Gauged(..)))
}

#[test]
fn every_number_case_of_a_sheet_that_names_no_gauge_has_gauge_0() {
    let mut random = Random::new(0x6c69_6674);
    let (mut older, mut cases, mut named) = (0, 0, 0);
    for _ in 0..6_000 {
        let tree = sheet(&mut random);
        let Some(graph) = own_graph(&tree.bytes()) else { continue };
        let before = lower(&graph);
        if !is_older(&tree) {
            named += usize::from(before.is_none());
            continue;
        }
        let before = before.unwrap_or_else(|| panic!("another gauge: {}", to_hex(&tree.bytes())));
        assert_eq!(before.len() + numbers(&graph), graph.len());
        assert_eq!(lift(&before), Some(graph.clone()));
        (older, cases) = (older + 1, cases + numbers(&graph));
    }
    println!("{older} sheets with {cases} number cases, {named} with cases of named gauges");
    assert!(older >= 2_000 && cases >= 20_000 && named >= 500, "{older} {cases} {named}");
}

#[test]
fn graphs_of_before_made_at_random_are_refused_as_they_are() {
    let mut random = Random::new(0x6f6c_6465);
    let mut count = Count::default();
    for round in 0..6_000 {
        let tree = sheet(&mut random);
        let bytes = tree.bytes();
        let Ok(read) = Sheet::read(&bytes) else { continue };
        let graph = match round % 2 {
            0 => own_graph(&bytes),
            _ => Some(graph_bytes(tree.arity, tree.rules.len() as u8, &foreign(&mut random, &read.asked()))),
        };
        let Some(graph) = graph else { continue };
        let Some(before) = lower(&graph).filter(|before| *before != graph) else { continue };
        let refusal = check_graph(&bytes, &before).expect_err("a graph of before");
        count.met(format!("{} {refusal}", ["built", "another maker's"][round % 2]));
    }
    count.print();
    // The byte after a case would belong to it, so that most often no case or node follows it.
    count.often(300, ["built 22", "another maker's 22"]);
    count.often(10, ["another maker's 23"]);
}

#[test]
fn a_graph_of_before_may_be_taken_for_another() {
    // One rule from 0 to 9 and 63 of anything. The case's node takes in the kind of the execute after it, which leaves 40.
    let sheet = from_hex(&format!("10 01 40 22 00 00 00 09 {}", "20".repeat(63)));
    let switch = "43 00 00 00 01 00 01 00 01 46 00 00 00 09 00 00";
    let before = from_hex(&format!("12 01 40 00 43 {switch} 42 40 {}", "41".repeat(65)));
    assert_eq!(check_graph(&sheet, &before), Ok(GraphSize { nodes: 67 }));
    let lifted = lift(&before).expect("a graph");
    assert_eq!(check_graph(&sheet, &lifted), Ok(GraphSize { nodes: 67 }));
    let said =
        |graph: &[u8]| walk(&sheet, graph, &from_hex("11 01 31 00 01")).map(|answer| answer.to_string());
    assert_eq!(said(&before), Ok("fail 0 1 0000000000000000".into()));
    assert_eq!(said(&lifted), Ok("commit 64 1 0000000000000000".into()));
}
