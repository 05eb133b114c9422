//! Graphs of random sheets: byte for byte the reference's, accepted, and written again as they are.

use voltunnis_tests::both::{build, check_graph, lent, rewrite};
use voltunnis_tests::generate::crowded::crowded;
use voltunnis_tests::generate::damage::damaged;
use voltunnis_tests::generate::random::Random;
use voltunnis_tests::generate::sheets::sheet;
use voltunnis_tests::reference;
use voltunnis_tests::results::{Built, GraphSize, Refusal, Written};

/// Builds to a buffer of this length; a refusal changes no byte, a graph none after it.
fn built(sheet: &[u8], len: usize) -> (Result<Built, Refusal>, Vec<u8>) {
    let (result, buffer) = build(sheet, len);
    let end = result.map_or(0, |built| built.bytes as usize);
    assert!(buffer[end..] == lent(len)[end..], "a byte that is not the graph's");
    (result, buffer)
}

/// The lengths of the buffers that a sheet is tried with, for a graph of so many bytes.
fn lengths(random: &mut Random, fits: usize) -> Vec<usize> {
    let mut lengths = vec![fits + random.below(40)];
    if random.percent(25) {
        lengths.extend([fits, fits - 1, 0, random.below(fits)]);
    }
    lengths
}

/// What was tried: calls by refusal, graphs by the power of 2 that their nodes reach, and those of more than 32 rules.
#[derive(Default)]
struct Tried {
    refusals: [usize; 28],
    sizes: [usize; 11],
    many_rules: usize,
}

impl Tried {
    /// Builds the graph of a sheet to buffers of several lengths, checks it and writes it again.
    fn sheet(&mut self, random: &mut Random, sheet: &[u8]) {
        let mut graph = reference::own_graph(sheet).unwrap_or_else(|| vec![0; 100]);
        let expected = reference::build(sheet, &mut graph);
        let (fits, graph) = (graph.len(), &graph[..]);
        for len in lengths(random, fits) {
            let (result, buffer) = built(sheet, len);
            assert_eq!(result, if len < fits { expected.and(Err(19)) } else { expected });
            assert!(result.is_err() || buffer[..fits] == *graph, "other bytes in another buffer");
            self.refusals[usize::from(result.err().unwrap_or(0))] += 1;
        }
        if let Ok(Built { nodes, bytes }) = expected {
            assert_eq!(check_graph(sheet, graph), Ok(GraphSize { nodes }));
            assert!(rewrite(sheet, graph, fits) == (Ok(Written { bytes }), graph.to_vec()));
            self.sizes[nodes.ilog2() as usize] += 1;
            self.many_rules += usize::from(sheet[2] > 32);
        }
    }
}

/// Tries 14,500 random sheets, of which more than 10,000 have a graph.
fn try_sheets(seed: u64) {
    let mut random = Random::new(seed);
    let mut tried = Tried::default();
    for _ in 0..14_500 {
        let tree = if random.percent(10) { crowded(&mut random) } else { sheet(&mut random) };
        let mut bytes = tree.bytes();
        if random.percent(3) {
            bytes = damaged(&mut random, &bytes);
        }
        tried.sheet(&mut random, &bytes);
    }
    let Tried { refusals, sizes, many_rules } = tried;
    let graphs: usize = sizes.iter().sum();
    println!("{graphs} graphs, {many_rules} of more than 32 rules");
    println!("by refusal {refusals:?}, by nodes from 1, 2, 4, .. {sizes:?}");
    assert!(graphs >= 10_000, "{graphs} graphs");
    assert!(many_rules >= 1_000, "{many_rules} graphs of more than 32 rules");
    for refusal in [0, 1, 4, 10, 11, 18, 19] {
        assert!(refusals[refusal] >= 30, "{refusal}: {} calls", refusals[refusal]);
    }
    assert!(sizes[..10].iter().all(|count| *count >= 100), "few graphs of some size: {sizes:?}");
}

#[test]
fn library_and_reference_agree_on_random_sheets() {
    try_sheets(0x6275_696c);
}

#[test]
fn library_and_reference_agree_on_as_many_more() {
    try_sheets(0x6d6f_7265);
}
