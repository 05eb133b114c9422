//! `vt listing` says what document 01's listing says, byte for byte, on the shared vectors and on random
//! sheets and pieces, good and damaged.

mod common;

use common::Folder;
use voltunnis_generate::damage::damaged;
use voltunnis_generate::known;
use voltunnis_generate::pieces::piece;
use voltunnis_generate::random::Random;
use voltunnis_generate::sheets::sheet;
use voltunnis_generate::stock::Stock;
use voltunnis_generate::trees::piece_bytes;
use voltunnis_tests::reference::listing::listing;
use voltunnis_tests::vectors;

#[track_caller]
fn lists(folder: &Folder, sheet: &[u8], pieces: &[u8]) {
    folder.write("sheet.bin", sheet);
    folder.write("pieces.bin", pieces);
    let ran = folder.run(&["listing", "sheet.bin", "pieces.bin"]);
    let expected = listing(sheet, pieces);
    assert!(ran.stdout == expected, "{}\ninstead of\n{expected}", ran.stdout);
    assert_eq!(ran.status == 0, !expected.contains("refused"));
}

#[test]
fn the_listing_is_the_listings() {
    let folder = Folder::new("listings");
    for vector in vectors::all() {
        let pieces: Vec<u8> = vector.pieces.iter().flat_map(|said| said.piece.clone()).collect();
        lists(&folder, &vector.sheet, &pieces);
    }
    let mut random = Random::new(0x6c69_7374);
    for round in 0..100 {
        let tree = sheet(&mut random);
        let mut pieces = Vec::new();
        for _ in 0..random.below(8) {
            pieces.extend(piece_bytes(&piece(&mut random, &tree, Stock::FULL)));
        }
        let bytes = tree.bytes();
        match round % 4 {
            0 => lists(&folder, &damaged(&mut random, &bytes), &pieces),
            1 => lists(&folder, &bytes, &damaged(&mut random, &pieces)),
            _ => lists(&folder, &bytes, &pieces),
        }
    }
}

#[test]
fn inputs_are_cut_and_the_buffer_has_65536_bytes() {
    let folder = Folder::new("listing-cut");
    lists(&folder, &known::example(), &[0x11, 2, 0x30, 0x30].repeat(16_400));
    lists(&folder, &[0x10, 1, 0], &[0x11, 1, 0x30].repeat(30_000));
    lists(&folder, &known::nested_16(32), &[]);
    lists(&folder, &known::nodes_1025(), &[]);
}
