//! Series of symbols, `#1000..#1499`, as a user writes, checks, tries and explains them.

mod common;

use common::Folder;
use voltunnis_generate::bytes::{from_hex, to_hex};
use voltunnis_workbench::notation::{Graph, Piece, Sheet};
use voltunnis_workbench::retrace::retrace;
use voltunnis_workbench::sheet_tests::SheetTests;

/// The arcade's tokens, in series.
const ARCADE: &str = include_str!("../examples/arcade.sheet");

fn arcade(name: &str) -> Folder {
    let folder = Folder::new(name);
    folder.write("arcade.sheet", ARCADE);
    folder
}

#[test]
fn one_rule_takes_a_whole_series() {
    let folder = arcade("series-try");
    let said = "\
(#1000, 243)  commit 1
    rule 1: (#1000..#1499, 240..246)
    1 edge
(#1499, ?)  execute 1
    rule 1: (#1000..#1499, 240..246)
    1 edge, waits for argument 2
(jubilee, ?)  suspend
    2 edges, waits for argument 2
(?, 255)  execute 3
    rule 3: (jubilee, 250..260)
    2 edges, waits for argument 1
(#2000, 243)  fail
    1 edge
";
    let pieces = ["(#1000, 243)", "(#1499, ?)", "(jubilee, ?)", "(?, 255)", "(#2000, 243)"];
    let words: Vec<&str> = ["try", "arcade.sheet"].into_iter().chain(pieces).collect();
    assert_eq!(folder.says(&words), said);
    folder.write("tray.pieces", pieces.join("\n"));
    let lines = "sheet 2 3 2 8\n1 commit 1 1 0000000000000000\n2 execute 1 1 0000000000000002\n\
                 3 suspend 0 2 0000000000000002\n4 execute 3 2 0000000000000001\n5 fail 0 1 0000000000000000\n";
    assert_eq!(folder.says(&["listing", "arcade.sheet", "tray.pieces"]), lines);
}

#[test]
fn the_run_that_a_token_takes_is_explained() {
    let folder = arcade("series-explain");
    let said = "\
(#1800, 243)

node  asks        finds  takes         to  rules left
   0  argument 1  #1800  #1778..#1999   2  2
   2  execute 2

commit 2 after 1 edge: rule 2 is left, and all its tests hold
  rule 2: (#1500..#1999, 240..246)
    argument 1 in #1500..#1999  #1800  holds
    argument 2 in 240..246      243    holds
";
    assert_eq!(folder.says(&["explain", "arcade.sheet", "(#1800, 243)"]), said);
    let json = folder.says(&["explain", "--json", "arcade.sheet", "(#1800, 243)"]);
    let step = "\"finds\": \"#1800\",\n      \"contain\": 1,\n      \"takes\": \"#1778..#1999\",\n";
    assert!(json.contains(step) && json.contains("\"test\": \"argument 1 in #1500..#1999\""), "{json}");
    let said = folder.says(&["explain", "arcade.sheet", "(jubilee, ?)"]);
    assert!(said.contains("   0  argument 1  jubilee  jubilee   3  2 3\n"), "{said}");
}

#[test]
fn sheets_with_series_are_bytes_and_back() {
    let folder = arcade("series-bytes");
    let hex =
        "10 02 03\n26 03 e8 05 db 22 00 f0 00 f6\n26 05 dc 07 cf 22 00 f0 00 f6\n21 06 f1 22 00 fa 01 04\n";
    assert_eq!(folder.says(&["bytes", "arcade.sheet"]), hex);
    folder.says(&["bytes", "arcade.sheet", "-o", "sheet.bin"]);
    let plain = "sheet 2\n1: (#1000..#1499, 240..246)\n2: (#1500..#1999, 240..246)\n3: (#1777, 250..260)\n";
    assert_eq!(folder.says(&["text", "sheet.bin"]), plain);
    // An end that has a name is printed by it, and the name is declared.
    folder.write(
        "names.sheet",
        "sheet 1\nname first = 1500\nname last = #1999\n1: (first..last)\n2: (#7..first)\n",
    );
    let named = "sheet 2\nname first = 1500\nname last = 1999\n1: (#1000..#1499, 240..246)\n\
                 2: (first..last, 240..246)\n3: (#1777, 250..260)\n";
    assert_eq!(folder.says(&["text", "--sheet", "names.sheet", "sheet.bin"]), named);
    assert_eq!(folder.says(&["bytes", "names.sheet"]), "10 01 02\n26 05 dc 07 cf\n26 00 07 05 dc\n");
}

#[test]
fn a_series_of_one_symbol_is_tidied_to_it() {
    let folder = arcade("series-tidy");
    folder.write("one.sheet", "sheet 2\nname red = 7\n1: (red..red, #1(#7..#7, #7..#8))\n2: (red, _)\n");
    let tidy = "sheet 2\nname red = 7\n1: (red, #1(red, red..#8))\n2: (red, _)\n";
    assert_eq!(folder.says(&["tidy", "one.sheet"]), tidy);
    folder.write("tidy.sheet", tidy);
    let graph = |name: &str| folder.says(&["build", name]);
    assert_eq!(graph("one.sheet"), graph("tidy.sheet"));
    // As text the two are told apart.
    folder.says(&["bytes", "one.sheet", "-o", "one.bin"]);
    assert!(folder.says(&["text", "one.bin"]).contains("1: (#7..#7, #1(#7..#7, #7..#8))\n"));
}

/// The walk of a piece over a graph, by the library and here: its answer, and the edge taken first.
#[track_caller]
fn walked(sheet: &str, graph: &[u8], id: u16) -> (String, usize) {
    let (sheet, piece) = (from_hex(sheet), from_hex(&format!("110131{id:04x}")));
    let answer = voltunnis::answer(&sheet, graph, &piece).expect("an answer");
    let tests = SheetTests::of(&Sheet::read(&sheet).expect("a sheet"));
    let way = retrace(&tests, &Graph::read(graph).expect("a graph"), &Piece::read(&piece).expect("a piece"));
    assert_eq!(way.answer, Ok(answer), "#{id}");
    let voltunnis::Walk { word, rule, edges } = answer.walk;
    (format!("{word} {rule} {edges}"), way.steps[0].edge)
}

#[test]
fn known_walks_of_series_are_retraced() {
    // #1..#5 and #3..#9: the runs of the first, of both, of the second.
    let sheet = "10010226000100052600030009";
    let graph = voltunnis::graph(&from_hex(sheet)).expect("a graph");
    let runs = "1201020005430000000300040002440001000200014400030005000244000600090003420141420240";
    assert_eq!(to_hex(&graph), runs);
    for (id, answer, edge) in [
        (0, "fail 0 1", 3),
        (1, "commit 1 1", 0),
        (3, "suspend 0 1", 1),
        (5, "suspend 0 1", 1),
        (6, "commit 2 1", 2),
        (9, "commit 2 1", 2),
        (10, "fail 0 1", 3),
        (65535, "fail 0 1", 3),
    ] {
        assert_eq!(walked(sheet, &graph, id), (answer.into(), edge), "#{id}");
    }
    // All ids, and from 65534 on: a series may end with the last id.
    let sheet = "100102260000ffff26fffeffff";
    let graph = voltunnis::graph(&from_hex(sheet)).expect("a graph");
    for (id, answer) in
        [(0, "commit 1 1"), (65533, "commit 1 1"), (65534, "suspend 0 1"), (65535, "suspend 0 1")]
    {
        assert_eq!(walked(sheet, &graph, id).0, answer, "#{id}");
    }
}

#[test]
fn another_makers_runs_may_part_a_series() {
    let sheet = "100102260000000920";
    // #0..#4 to execute 1, #5 to suspend, #6..#20 to fail.
    let graph = "1201020004 430000000300030002440000000400014400050005000244000600140003 4201 41 40";
    let graph = from_hex(&graph.replace(' ', ""));
    for (id, edge) in [(0, 0), (4, 0), (5, 1), (6, 2), (20, 2), (21, 3)] {
        assert_eq!(walked(sheet, &graph, id).1, edge, "#{id}");
    }
}
