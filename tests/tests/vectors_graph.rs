//! The shared vectors in full, and document 01's example: graphs byte for byte, and every line of
//! the listing with edges and wait list, of the reference.

use voltunnis_tests::bytes::from_hex;
use voltunnis_tests::reference::{self, listing::listing};
use voltunnis_tests::vectors;

#[test]
fn the_reference_builds_the_graphs_that_are_given() {
    for vector in vectors::all() {
        let (_, nodes) = vector.sheet_says();
        let mut buffer = vec![0xaa; vector.graph.len() + 3];
        let built = reference::build(&vector.sheet, &mut buffer).expect("an accepted sheet");
        assert_eq!(built.nodes, nodes, "{}", vector.name);
        assert_eq!(built.bytes as usize, vector.graph.len(), "{}", vector.name);
        assert_eq!(buffer[..vector.graph.len()], vector.graph, "{}", vector.name);
        assert_eq!(buffer[vector.graph.len()..], [0xaa; 3], "{}", vector.name);
    }
}

#[test]
fn the_reference_walks_as_is_said() {
    for vector in vectors::all() {
        for (at, said) in vector.pieces.iter().enumerate() {
            let answer = reference::walk(&vector.sheet, &vector.graph, &said.piece).expect("an answer");
            assert_eq!(format!("{} {answer}", at + 1), said.line, "{}", vector.name);
        }
    }
}

#[test]
fn the_reference_lists_as_is_said() {
    for vector in vectors::all() {
        let pieces: Vec<u8> = vector.pieces.iter().flat_map(|said| said.piece.clone()).collect();
        let said = vector.pieces.iter().map(|said| &said.line);
        let lines: String =
            [&vector.sheet_line].into_iter().chain(said).map(|line| format!("{line}\n")).collect();
        assert_eq!(listing(&vector.sheet, &pieces), lines, "{}", vector.name);
    }
}

#[test]
fn the_example_is_document_01s_with_the_wide_count_runs_of_ids_and_pairs_asked() {
    let sheet = from_hex("10 02 02 24 00 24 00 21 00 01 21 00 02");
    let graph = from_hex(
        "12 02 02 00 06 | 43 00 00 00 01 00 02 00 01 44 00 01 00 01 00 01 | \
         43 00 55 00 01 00 02 00 03 44 00 02 00 02 00 03 | 42 01 | 47 00 00 00 55 00 04 00 05 | 42 02 | 41",
    );
    let mut buffer = [0; 51];
    assert_eq!(reference::build(&sheet, &mut buffer).map(|built| built.bytes), Ok(51));
    assert_eq!(buffer[..], graph);
    let pieces =
        from_hex("11 02 31 00 01 31 00 02 | 11 02 30 31 00 01 | 11 02 30 30 | 11 02 31 00 03 31 00 04");
    let lines = "sheet 2 2 3 6\n\
                 1 commit 2 3 0000000000000000\n\
                 2 execute 1 2 0000000000000004\n\
                 3 suspend 0 3 0000000000000007\n\
                 4 fail 0 1 0000000000000000\n";
    assert_eq!(listing(&sheet, &pieces), lines);
}
