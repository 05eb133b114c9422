//! Trees are read from the bytes that they write, and whatever is read is written as it was.

use voltunnis_generate::asked::Asked;
use voltunnis_generate::crowded::crowded;
use voltunnis_generate::damage::{damaged, noise};
use voltunnis_generate::graphs::foreign;
use voltunnis_generate::hostile::{hostile_piece, hostile_sheet};
use voltunnis_generate::nodes::GraphNodes;
use voltunnis_generate::pieces::piece;
use voltunnis_generate::random::Random;
use voltunnis_generate::sheets::sheet;
use voltunnis_generate::stock::Stock;
use voltunnis_generate::trees::{piece_bytes, read_piece, SheetTree};

const NOTHING: &[u8] = &[];

#[test]
fn trees_are_read_from_their_bytes() {
    let mut random = Random::new(1);
    for _ in 0..2_000 {
        let tree = if random.percent(10) { crowded(&mut random) } else { sheet(&mut random) };
        assert_eq!(SheetTree::read(&tree.bytes()), Some((tree.clone(), NOTHING)));
        let terms = piece(&mut random, &tree, Stock::FULL);
        assert_eq!(read_piece(&piece_bytes(&terms)), Some((terms, NOTHING)));
        let nodes = foreign(&mut random, &Asked::of(&tree));
        let graph = GraphNodes { arity: tree.arity, rules: tree.rules.len() as u8, nodes };
        assert_eq!(GraphNodes::read(&graph.bytes()), Some((graph, NOTHING)));
    }
}

/// Bytes that may begin with a sheet, a piece or a graph, or with none.
fn any_bytes(random: &mut Random) -> Vec<u8> {
    let tree = sheet(random);
    let terms = piece(random, &tree, Stock::FULL);
    let nodes = foreign(random, &Asked::of(&tree));
    let graph = GraphNodes { arity: tree.arity, rules: tree.rules.len() as u8, nodes }.bytes();
    let bytes = match random.below(6) {
        0 => tree.bytes(),
        1 => hostile_sheet(random, &tree),
        2 => piece_bytes(&terms),
        3 => hostile_piece(random, &terms),
        4 => noise(random, 0x10),
        _ => graph,
    };
    if random.percent(60) {
        damaged(random, &bytes)
    } else {
        bytes
    }
}

#[test]
fn whatever_is_read_is_written_as_it_was() {
    let mut random = Random::new(2);
    let mut read = [0; 3];
    for _ in 0..10_000 {
        let bytes = any_bytes(&mut random);
        if let Some((tree, rest)) = SheetTree::read(&bytes) {
            assert_eq!([&tree.bytes(), rest].concat(), bytes);
            read[0] += 1;
        }
        if let Some((terms, rest)) = read_piece(&bytes) {
            assert_eq!([&piece_bytes(&terms), rest].concat(), bytes);
            read[1] += 1;
        }
        if let Some((graph, rest)) = GraphNodes::read(&bytes) {
            assert_eq!([&graph.bytes(), rest].concat(), bytes);
            read[2] += 1;
        }
    }
    assert!(read.iter().all(|count| *count > 500), "{read:?}");
}

#[test]
fn compounds_without_end_are_not_read() {
    let nested = |head: &[u8], kind: u8| [head, &[kind, 0, 1, 1].repeat(100_000)].concat();
    assert_eq!(SheetTree::read(&nested(&[0x10, 1, 1], 0x23)), None);
    assert_eq!(read_piece(&nested(&[0x11, 1], 0x33)), None);
}
