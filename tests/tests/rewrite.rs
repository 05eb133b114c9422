//! Writing a graph's nodes again: the bytes that were read, the bytes of the buffer after them, and
//! the whole buffer on refusals.

use voltunnis_tests::both::{lent, rewrite};
use voltunnis_tests::bytes::from_hex;
use voltunnis_tests::generate::graphs::graph;
use voltunnis_tests::generate::known;
use voltunnis_tests::generate::random::Random;
use voltunnis_tests::generate::sheets::sheet;
use voltunnis_tests::reference::nodes::{graph_bytes, Case, Node};
use voltunnis_tests::reference::sheet::Sheet;
use voltunnis_tests::reference::{self, build::nodes};
use voltunnis_tests::results::Written;
use voltunnis_tests::vectors;

/// Rewrites an accepted graph to a buffer with so many bytes more than it needs.
#[track_caller]
fn fits(sheet: &[u8], graph: &[u8], more: usize) {
    let (result, buffer) = rewrite(sheet, graph, graph.len() + more);
    assert_eq!(result, Ok(Written { bytes: graph.len() as u32 }));
    assert!(buffer[..graph.len()] == *graph, "other bytes than those read");
    assert!(buffer[graph.len()..] == lent(graph.len() + more)[graph.len()..], "a byte after the graph");
}

/// Rewrites to a buffer of this length and is refused; no byte of it changes.
#[track_caller]
fn refused(sheet: &[u8], graph: &[u8], len: usize, refusal: u8) {
    let (result, buffer) = rewrite(sheet, graph, len);
    assert_eq!(result, Err(refusal));
    assert!(buffer == lent(len), "a byte changed on a refusal");
}

#[test]
fn the_vectors_graphs_are_written_again() {
    for vector in vectors::all() {
        for more in [0, 1, 1000] {
            fits(&vector.sheet, &vector.graph, more);
        }
        for len in [0, 1, 5, vector.graph.len() - 1] {
            refused(&vector.sheet, &vector.graph, len, 19);
        }
    }
}

/// A switch at place 0 with so many number cases, which overlap, each to the node before.
fn switch_of(count: usize) -> Node {
    let pairs = (0..363).flat_map(|low| (low..363).map(move |high| (low, high)));
    let cases =
        pairs.take(count).map(|(low, high)| Case::Numbers { gauge: 0, low, high, node: 1023 }).collect();
    Node::Switch { place: 0, neither: 1022, unknown: 1021, cases }
}

#[test]
fn graphs_of_many_cases_are_written_again() {
    let sheet = from_hex("10 01 01 21 00 01");
    let mut nodes = vec![switch_of(300); 1024];
    let graph = graph_bytes(1, 1, &nodes);
    assert_eq!(graph.len(), 5 + 1024 * (9 + 300 * 8));
    fits(&sheet, &graph, 0);
    fits(&sheet, &graph, 9);
    refused(&sheet, &graph, graph.len() - 1, 19);
    // The first and the last switch with as many cases as there may be.
    (nodes[0], nodes[1023]) = (switch_of(65_535), switch_of(65_535));
    let graph = graph_bytes(1, 1, &nodes);
    assert_eq!(graph.len(), 5 + 1022 * (9 + 300 * 8) + 2 * (9 + 65_535 * 8));
    fits(&sheet, &graph, 3);
    refused(&sheet, &graph, graph.len() - 1, 19);
}

#[test]
fn a_built_graph_of_more_than_a_million_bytes_is_written_again() {
    for sheet in [known::nested_8(32), known::coins(28)] {
        let graph = reference::own_graph(&sheet).expect("a graph");
        assert!(graph.len() > 1_000_000);
        fits(&sheet, &graph, 0);
        refused(&sheet, &graph, graph.len() - 1, 19);
        refused(&sheet, &graph[..graph.len() - 1], graph.len(), 22);
    }
}

#[test]
fn graphs_of_1024_nodes_are_written_again_and_of_1025_are_not() {
    let sheet = known::nodes_1024();
    let read = Sheet::read(&sheet).expect("an accepted sheet");
    let mut nodes = nodes(&read).expect("a graph");
    assert_eq!(nodes.len(), 1024);
    let rules = read.rules.len() as u8;
    let graph = graph_bytes(read.arity, rules, &nodes);
    fits(&sheet, &graph, 0);
    fits(&sheet, &graph, 7);
    refused(&sheet, &graph, graph.len() - 1, 19);
    nodes.push(Node::Suspend);
    let graph = graph_bytes(read.arity, rules, &nodes);
    refused(&sheet, &graph, graph.len(), 21);
    refused(&sheet, &graph, 0, 21);
}

#[test]
fn question_19_comes_after_the_graphs_questions() {
    let sheet = from_hex("10 01 01 21 00 01");
    for (graph, refusal) in
        [("12", 21), ("12 01 01 00 01 48", 22), ("12 01 01 00 01 42 02", 23), ("12 01 01 00 01 41 00", 25)]
    {
        refused(&sheet, &from_hex(graph), 0, refusal);
        refused(&sheet, &from_hex(graph), 100, refusal);
    }
    refused(
        &sheet,
        &from_hex("12 01 01 00 01 43 00 00 00 02 00 00 00 00 44 00 01 00 01 00 00 44 00 01 00 01 00 00"),
        100,
        24,
    );
    refused(&from_hex("10 01 41"), &from_hex("12 01 01 00 01 41"), 0, 3);
}

#[test]
fn library_and_reference_agree_on_random_graphs() {
    let mut random = Random::new(0x7772_6974);
    let mut refusals = [0; 28];
    for _ in 0..20_000 {
        let sheet_bytes = sheet(&mut random).bytes();
        let Ok(sheet) = Sheet::read(&sheet_bytes) else {
            continue;
        };
        let graph = graph(&mut random, &sheet.asked(), || nodes(&sheet).ok());
        let len = match random.below(6) {
            0 => 0,
            1 => graph.len().saturating_sub(1),
            2 => graph.len() + 1,
            3 => random.below(graph.len() + 50),
            _ => graph.len(),
        };
        let (result, buffer) = rewrite(&sheet_bytes, &graph, len);
        if let Err(refusal) = result {
            assert!(buffer == lent(len), "a byte changed on a refusal");
            refusals[usize::from(refusal)] += 1;
        } else {
            assert!(buffer[..graph.len()] == graph, "other bytes than those read");
            assert!(buffer[graph.len()..] == lent(len)[graph.len()..], "a byte after the graph");
            refusals[0] += 1;
        }
    }
    println!("by refusal {refusals:?}");
    for refusal in [0, 19, 21, 22, 23, 24, 25] {
        assert!(refusals[refusal] >= 100, "{refusal}: {} calls", refusals[refusal]);
    }
}
