//! Readings that are a span, `231..239?`, as a user tries and explains them.

mod common;

use common::Folder;
use voltunnis_generate::bytes::from_hex;
use voltunnis_workbench::notation::{Graph, Piece, Sheet};
use voltunnis_workbench::retrace::{retrace, Way};
use voltunnis_workbench::sheet_tests::SheetTests;

/// The tutorial's coins.
const COINS: &str = include_str!("../examples/coins.sheet");

fn coins(name: &str) -> Folder {
    let folder = Folder::new(name);
    folder.write("coins.sheet", COINS);
    folder
}

#[test]
fn a_coin_commits_before_the_exact_number_comes() {
    let folder = coins("span-commit");
    let said = "\
(nickel, 212..218?, 18)  commit 2
    rule 2: (nickel, 210..220, 17..19)
    1 edge
(nickel, 205..215?, 18)  execute 2
    rule 2: (nickel, 210..220, 17..19)
    1 edge, waits for argument 2
(nickel, 221..240?, 18)  fail
    1 edge
(?, 215..223?, 17..18?)  suspend
    3 edges, waits for argument 1; for argument 2
";
    let pieces = [
        "(nickel, 212..218?, 18)",
        "(nickel, 205..215?, 18)",
        "(nickel, 221..240?, 18)",
        "(?, 215..223?, 17..18?)",
    ];
    let words: Vec<&str> = ["try", "coins.sheet"].into_iter().chain(pieces).collect();
    assert_eq!(folder.says(&words), said);
    folder.write("tray.pieces", pieces.join("\n"));
    let lines = "sheet 3 5 6 24\n1 commit 2 1 0000000000000000\n2 execute 2 1 0000000000000008\n\
                 3 fail 0 1 0000000000000000\n4 suspend 0 3 0000000000000009\n";
    assert_eq!(folder.says(&["listing", "coins.sheet", "tray.pieces"]), lines);
}

#[test]
fn the_case_that_a_span_takes_is_explained() {
    let folder = coins("span-explain");
    let said = "\
(?, 215..223?, 17..18?)

node  asks        finds      takes     to  rules left
   0  argument 1  ?          unknown    6  1 2 3 4 5
   6  argument 2  215..223?  210..225  12  2 3
  12  argument 3  17..18?    17..18    11  2 3
  11  suspend

node 6: of the 24 cases that contain 215..223?, 210..225 has the highest low, then the lowest high
node 12: of the 9 cases that contain 17..18?, 17..18 has the highest low, then the lowest high

suspend after 3 edges: rules 2 and 3 are left
waits for argument 1; for argument 2
  argument 2: 215..223? is partly inside, partly outside 210..220 (rule 2)
";
    assert_eq!(folder.says(&["explain", "coins.sheet", "(?, 215..223?, 17..18?)"]), said);
    let json = folder.says(&["explain", "--json", "coins.sheet", "(?, 215..223?, 17..18?)"]);
    let step = "\"finds\": \"215..223?\",\n      \"contain\": 24,\n      \"takes\": \"210..225\",\n      \"to\": 12,\n      \
                \"left\": [2, 3],\n      \"partly\": [2],\n      \"never\": []\n";
    assert!(json.contains(step), "{json}");
    let said = folder.says(&["explain", "coins.sheet", "(nickel, 205..215?, 18)"]);
    assert!(said.contains("    argument 2 in 210..220  205..215?  not known\n"), "{said}");
    assert!(!said.contains("partly"), "{said}");
}

#[test]
fn pieces_with_spans_are_bytes_and_back() {
    let folder = coins("span-bytes");
    let text = "(nickel, 212..218?, 18)\n(nickel, 5..5?, ?)\n";
    folder.write("tray.pieces", text);
    let hex = "11 03 31 00 02 34 00 d4 00 da 32 00 12\n11 03 31 00 02 34 00 05 00 05 30\n";
    assert_eq!(folder.says(&["bytes", "--sheet", "coins.sheet", "tray.pieces"]), hex);
    folder.says(&["bytes", "--sheet", "coins.sheet", "tray.pieces", "-o", "tray.bin"]);
    let again = folder.says(&["text", "--sheet", "coins.sheet", "tray.bin"]);
    assert_eq!(again, format!("name nickel = 2\n{text}"));
    assert_eq!(folder.says(&["check", "tray.bin"]), "tray.bin: 2 pieces of 3 arguments\n");
}

/// The walk of a piece over a graph, by the library and here.
#[track_caller]
fn walked(sheet: &str, graph: Option<&str>, piece: &str) -> (String, Way) {
    let [sheet, piece] = [sheet, piece].map(from_hex);
    let graph = graph.map_or_else(|| voltunnis::graph(&sheet).expect("a graph"), from_hex);
    let answer = voltunnis::answer(&sheet, &graph, &piece).expect("an answer");
    let tests = SheetTests::of(&Sheet::read(&sheet).expect("a sheet"));
    let way = retrace(&tests, &Graph::read(&graph).expect("a graph"), &Piece::read(&piece).expect("a piece"));
    assert_eq!(way.answer, Ok(answer));
    (answer.to_string(), way)
}

#[test]
fn known_walks_of_spans_are_retraced() {
    for (sheet, piece, said) in [
        // Anything, or 1: a number between 1 and 2 may still be either.
        ("100102202200010001", "11013400010002", "suspend 0 1 0000000000000001"),
        // A span with equal ends is that number; the same span of several numbers twice is not known.
        ("10020124002400", "11023200053400050005", "commit 1 0 0000000000000000"),
        ("10020124002400", "110234000100023400010002", "execute 1 0 0000000000000001"),
        // The first case that contains 5 is that of all numbers, but it is not the narrowest.
        ("100102202200040004", "1101320005", "commit 1 1 0000000000000000"),
        // 2, or anything: the run from 3 on is of no rule, and yet the span has a case of its own.
        ("100102220002000220", "11013400020003", "suspend 0 1 0000000000000001"),
        // X, from 3 to 4, or anything, on all numbers: the place is waited for.
        ("10010225000003000420", "1101340000ffff", "suspend 0 1 0000000000000001"),
    ] {
        assert_eq!(walked(sheet, None, piece).0, said, "{sheet} {piece}");
    }
}

#[test]
fn another_makers_cases_may_overlap_in_any_way() {
    // 0 to 9, or anything; cases 0..9, 2..20, 3..7, 3..8, 5..6 go to execute 1, fail, suspend, execute 2, execute 1.
    let sheet = "100102220000000920";
    let graph =
        "1201020005 430000000500020003 4600000000090001 4600000200140002 4600000300070003 4600000300080004 \
         4600000500060001 4201 40 41 4202";
    for (low, high, case, contain) in
        [(0, 1, 0, 1), (2, 9, 1, 2), (3, 3, 2, 4), (4, 8, 3, 3), (5, 6, 4, 5), (6, 7, 2, 4), (9, 20, 1, 1)]
    {
        let piece = format!("110134{low:04x}{high:04x}");
        let (_, way) = walked(sheet, Some(graph), &piece);
        assert_eq!((way.steps[0].edge, way.steps[0].contain), (case, contain), "{low}..{high}?");
    }
    // Neither: no case contains it.
    let (_, way) = walked(sheet, Some(graph), "1101340001000a");
    assert_eq!((way.steps[0].edge, way.steps[0].contain, way.steps[0].partly), (5, 0, 1));
}
