//! Numbers and ranges on gauges, `180@roller`, as a user writes, checks, tries and explains them.

mod common;

use common::Folder;
use voltunnis_generate::bytes::{from_hex, to_hex};
use voltunnis_workbench::notation::{parse_graph, parse_sheet, print_graph, Graph, Names, Piece, Sheet};
use voltunnis_workbench::retrace::retrace;
use voltunnis_workbench::sheet_tests::SheetTests;

/// A coin and a token, whose thickness is taken by a coil or by a roller.
const THICKNESS: &str = include_str!("../examples/thickness.sheet");

fn thickness(name: &str) -> Folder {
    let folder = Folder::new(name);
    folder.write("thickness.sheet", THICKNESS);
    folder
}

#[test]
fn a_range_takes_the_numbers_of_its_gauge() {
    let folder = thickness("gauges-try");
    let said = "\
(nickel, 180, ?)  commit 1
    rule 1: (nickel, 178..184, _)
    2 edges
(nickel, 104@roller, ?)  commit 2
    rule 2: (nickel, 100..106@roller, _)
    2 edges
(nickel, 180@roller, ?)  fail
    2 edges
(nickel, 104, ?)  fail
    2 edges
(nickel, 104@2, ?)  fail
    2 edges
(nickel, 180..182?, ?)  commit 1
    rule 1: (nickel, 178..184, _)
    2 edges
(nickel, 100..106?, ?)  fail
    2 edges
(brass, 180, 180)  commit 3
    rule 3: (brass, T, T)
    1 edge
(brass, 180, 180@0)  commit 3
    rule 3: (brass, T, T)
    1 edge
(brass, 180, 180@roller)  fail
    1 edge
(brass, 170..190?, 180@roller)  fail
    1 edge
";
    let pieces: Vec<&str> = said.lines().filter_map(|line| line.split_once("  ")).map(|(p, _)| p).collect();
    let pieces: Vec<&str> = pieces.into_iter().filter(|piece| piece.starts_with('(')).collect();
    let words: Vec<&str> = ["try", "thickness.sheet"].into_iter().chain(pieces.iter().copied()).collect();
    assert_eq!(folder.says(&words), said);
    folder.write("tray.pieces", format!("gauge roller = 1\n{}", pieces[..3].join("\n")));
    let lines = "sheet 3 3 3 10\n1 commit 1 2 0000000000000000\n2 commit 2 2 0000000000000000\n\
                 3 fail 0 2 0000000000000000\n";
    assert_eq!(folder.says(&["listing", "thickness.sheet", "tray.pieces"]), lines);
}

#[test]
fn gauges_that_differ_are_explained() {
    let folder = thickness("gauges-explain");
    let said = "\
(?, 180, 180@roller)

node  asks                     finds               takes     to  rules left
   0  argument 1               ?                   unknown    4  1 2 3
   4  argument 2               180                 178..184   8  1 3
   8  argument 2 = argument 3  180 and 180@roller  no         5  1
   5  execute 1

node 8: the numbers are on two gauges, so they differ

execute 1 after 3 edges: rule 1 is left, and not all its tests are known yet
  rule 1: (nickel, 178..184, _)
    argument 1 is nickel    ?    not known
    argument 2 in 178..184  180  holds
waits for argument 1
";
    assert_eq!(folder.says(&["explain", "thickness.sheet", "(?, 180, 180@roller)"]), said);
    let said = folder.says(&["explain", "thickness.sheet", "(brass, 180, 180@roller)"]);
    let test = "    argument 2 = argument 3  180 and 180@roller  contradicted: on two gauges\n";
    assert!(said.ends_with(test), "{said}");
    // Other values differ whatever the gauge.
    let said = folder.says(&["explain", "thickness.sheet", "(brass, 180, 181@roller)"]);
    assert!(said.ends_with("180 and 181@roller  contradicted\n"), "{said}");
}

#[test]
fn a_gauge_without_a_case_is_explained() {
    let folder = thickness("gauges-neither");
    let said = folder.says(&["explain", "thickness.sheet", "(nickel, 104@2, ?)"]);
    let neither = "   1  argument 2  104@2   neither   3  \n";
    assert!(said.contains(neither.trim_end()), "{said}");
    assert!(said.contains("\nnode 1: its cases are of other gauges, so none takes 104@2\n"), "{said}");
    for piece in ["(nickel, 180, ?)", "(nickel, 104@roller, ?)", "(nickel, 104, ?)", "(nickel, brass, ?)"] {
        let said = folder.says(&["explain", "thickness.sheet", piece]);
        assert!(said.contains("\n   1  argument 2  ") && !said.contains("gauges"), "{said}");
    }
    // Where no case is of numbers there is nothing to say of gauges.
    let said = folder.says(&["explain", "thickness.sheet", "(5@roller, 180, ?)"]);
    assert!(said.contains("\n   0  argument 1  5@roller  neither   3") && !said.contains("gauges"), "{said}");
    let json = folder.says(&["explain", "--json", "thickness.sheet", "(nickel, 104@roller, ?)"]);
    let step = "\"finds\": \"104@roller\",\n      \"contain\": 4,\n      \"takes\": \"100..106@roller\",\n";
    assert!(json.contains(step) && json.contains("\"test\": \"argument 2 in 100..106@roller\""), "{json}");
}

#[test]
fn a_test_on_another_gauge_is_explained() {
    let folder = Folder::new("gauges-made");
    folder.write("one.sheet", "sheet 3\ngauge roller = 1\n1: (5..9, 7@roller, #1(X:5..9, X))\n");
    let said = "\
(7@roller, 7, #1(7, 7@roller))

node  asks  finds  takes  to  rules left
   0  execute 1

fail after 0 edges: rule 1 is left, and a test of it is contradicted
  rule 1: (5..9, 7@roller, #1(X:5..9, X))
    argument 1 in 5..9                       7@roller          contradicted: on another gauge
    argument 2 is 7@roller                   7                 contradicted: on another gauge
    argument 3 is #1/2                       #1(7, 7@roller)   holds
    argument 3, part 1 in 5..9               7                 holds
    argument 3, part 2 in 5..9               7@roller          contradicted: on another gauge
    argument 3, part 1 = argument 3, part 2  7 and 7@roller    contradicted: on two gauges
";
    let found = folder.says(&["explain", "one.sheet", "(7@roller, 7, #1(7, 7@roller))"]);
    let words = |text: &str| text.split_whitespace().map(String::from).collect::<Vec<_>>();
    assert_eq!(words(&found), words(said), "{found}");
}

#[test]
fn sheets_with_gauges_are_bytes_and_back() {
    let folder = thickness("gauges-bytes");
    let hex = "10 03 03\n21 00 02 22 00 b2 00 b8 20\n21 00 02 27 01 00 64 00 6a 20\n21 00 03 24 00 24 00\n";
    assert_eq!(folder.says(&["bytes", "thickness.sheet"]), hex);
    folder.says(&["bytes", "thickness.sheet", "-o", "sheet.bin"]);
    let plain = "sheet 3\n1: (#2, 178..184, _)\n2: (#2, 100..106@1, _)\n3: (#3, X, X)\n";
    assert_eq!(folder.says(&["text", "sheet.bin"]), plain);
    let named = "sheet 3\nname nickel = 2\nname brass = 3\ngauge roller = 1\n1: (nickel, 178..184, _)\n\
                 2: (nickel, 100..106@roller, _)\n3: (brass, X, X)\n";
    assert_eq!(folder.says(&["text", "--sheet", "thickness.sheet", "sheet.bin"]), named);
    assert_eq!(folder.says(&["tidy", "thickness.sheet"]), named);
}

#[test]
fn pieces_on_gauges_are_bytes_and_back() {
    let folder = thickness("gauges-pieces");
    let text = "(nickel, 104@roller, 5@0)\n(#7(5@255), 5, 5..9?)\n";
    folder.write("tray.pieces", text);
    let hex =
        "11 03 31 00 02 36 01 00 68 36 00 00 05\n11 03 33 00 07 01 36 ff 00 05 32 00 05 34 00 05 00 09\n";
    assert_eq!(folder.says(&["bytes", "--sheet", "thickness.sheet", "tray.pieces"]), hex);
    folder.says(&["bytes", "--sheet", "thickness.sheet", "tray.pieces", "-o", "tray.bin"]);
    let again = folder.says(&["text", "--sheet", "thickness.sheet", "tray.bin"]);
    assert_eq!(again, format!("name nickel = 2\ngauge roller = 1\n{text}"));
    assert_eq!(folder.says(&["text", "tray.bin"]), text.replace("nickel", "#2").replace("roller", "1"));
    // A text that begins with a gauge is told by what follows, as one that begins with a name is.
    folder.write("tray.txt", format!("gauge wheel = 1\n(?, 5@wheel)\n{}", "(?, ?)\n"));
    assert_eq!(folder.says(&["check", "tray.txt"]), "tray.txt: 2 pieces of 2 arguments\n");
}

#[test]
fn a_range_that_names_gauge_0_is_tidied() {
    let folder = Folder::new("gauges-tidy");
    folder.write("zero.sheet", "sheet 2\ngauge coil = 0\n1: (5..9@coil, #1(7@0, 7@1))\n2: (5..9, _)\n");
    let tidy = "sheet 2\n1: (5..9, #1(7, 7@1))\n2: (5..9, _)\n";
    assert_eq!(folder.says(&["tidy", "zero.sheet"]), tidy);
    folder.write("tidy.sheet", tidy);
    let graph = |name: &str| folder.says(&["build", name]);
    assert_eq!(graph("zero.sheet"), graph("tidy.sheet"));
    // As text the two are told apart.
    folder.says(&["bytes", "zero.sheet", "-o", "zero.bin"]);
    assert!(folder.says(&["text", "zero.bin"]).contains("1: (5..9@0, #1(7@0, 7@1))\n"));
    let named = folder.says(&["text", "--sheet", "zero.sheet", "zero.bin"]);
    assert!(named.starts_with("sheet 2\ngauge coil = 0\n1: (5..9@coil, #1(7@coil, 7@1))\n"), "{named}");
}

#[test]
fn a_gauge_and_an_id_may_have_one_name() {
    let text = "sheet 2\nname roller = 7\ngauge roller = 1\ngauge wheel = 1\n1: (roller, 5@roller)\n2: (_, 6@wheel)\n";
    let written = parse_sheet(text).expect("a sheet");
    assert_eq!(to_hex(&written.sheet.bytes()), "100202210007270100050005202701000600 06".replace(' ', ""));
    let printed = written.sheet.print(&written.names);
    assert_eq!(printed, text.replace("gauge wheel = 1\n", "").replace("wheel", "roller"));
}

/// In a graph gauge 0 is not named, and `gauge` cannot stand for an id, as it begins a declaration.
#[test]
fn graphs_with_gauges_come_back_as_they_were() {
    let cases = "460000050009000046010005000500004607000000ff000046ff0000ffff0000";
    let bytes = from_hex(&format!("12010100014300000005 00000000 44000500050000{cases}").replace(' ', ""));
    let text = "graph 1, 1 rule, 1 node\n0: argument 1\n   #5        -> 0\n   5..9      -> 0\n   5@1       -> 0\n   \
                0..255@7  -> 0\n   0..65535@255 -> 0\n   neither   -> 0\n   unknown   -> 0\n";
    let words = |text: &str| text.split_whitespace().map(String::from).collect::<Vec<_>>();
    assert_eq!(words(&print_graph(&bytes).expect("a graph")), words(text));
    let declared = text.replace("1 node\n", "1 node\nname gauge = 5\ngauge wheel = 7\ngauge coil = 0\n");
    let written = declared.replace("@7", "@wheel").replace("5..9 ", "5..9@coil");
    assert_eq!(to_hex(&parse_graph(&written, &Names::default()).expect("a graph").bytes()), to_hex(&bytes));
    let names =
        parse_sheet("sheet 1\nname gauge = 5\ngauge wheel = 7\ngauge coil = 0\n").expect("names").names;
    let printed = Graph::read(&bytes).expect("a graph").print(&names, |_| None);
    let again = printed.replace("name gauge = 5\n", "").replace("gauge wheel = 7\n", "");
    assert_eq!(words(&again), words(&text.replace("@7", "@wheel")), "{printed}");
    assert_eq!(to_hex(&parse_graph(&printed, &names).expect("a graph").bytes()), to_hex(&bytes));
}

/// The walk of a piece over a graph, by the library and here: its answer, and the edge taken first.
#[track_caller]
fn walked(sheet: &str, graph: Option<&str>, piece: &str) -> (String, Option<usize>) {
    let [sheet, piece] = [sheet, piece].map(from_hex);
    let graph = graph.map_or_else(|| voltunnis::graph(&sheet).expect("a graph"), from_hex);
    let answer = voltunnis::answer(&sheet, &graph, &piece).expect("an answer");
    let tests = SheetTests::of(&Sheet::read(&sheet).expect("a sheet"));
    let way = retrace(&tests, &Graph::read(&graph).expect("a graph"), &Piece::read(&piece).expect("a piece"));
    assert_eq!(way.answer, Ok(answer), "{}", to_hex(&piece));
    let voltunnis::Walk { word, rule, edges } = answer.walk;
    (format!("{word} {rule} {edges}"), way.steps.first().map(|step| step.edge))
}

#[test]
fn known_walks_of_gauges_are_retraced() {
    // 2..9 on gauge 0, 3..4 on gauge 1: six cases of each gauge, then neither and unknown.
    let sheet = "100102220002 0009270100030004".replace(' ', "");
    for (piece, said, edge) in [
        ("1101320003", "commit 1 1", 3),
        ("110136000003", "commit 1 1", 3),
        ("110136010003", "commit 2 1", 9),
        ("110136010002", "fail 0 1", 6),
        ("110136020003", "fail 0 1", 12),
        ("11013400030004", "commit 1 1", 3),
        ("11013400000003", "execute 1 1", 1),
        ("110130", "suspend 0 1", 13),
        ("110135", "fail 0 1", 12),
    ] {
        assert_eq!(walked(&sheet, None, piece), (said.into(), Some(edge)), "{piece}");
    }
    // Anything, 2..3 on gauge 1: no case is of gauge 0, so numbers of it and spans go to neither.
    let sheet = "10010220270100020003";
    for (piece, said, edge) in [
        ("110136010002", "suspend 0 1", 3),
        ("110136010004", "commit 1 1", 5),
        ("1101320002", "commit 1 1", 6),
        ("11013400020003", "commit 1 1", 6),
    ] {
        assert_eq!(walked(sheet, None, piece), (said.into(), Some(edge)), "{piece}");
    }
}

#[test]
fn another_makers_cases_are_of_one_gauge_each() {
    // 2..9 on gauge 1; cases 2..5 of gauges 0, 1 and 2: to fail, execute 1 and suspend.
    let sheet = "100101270100020009";
    let cases = "4600000200050001 4601000200050002 4602000200050003";
    let graph = format!("1201010004 430000000300010003 {cases} 40 4201 41").replace(' ', "");
    for (piece, said, edge) in [
        ("1101320003", "fail 0 1", 0),
        ("11013400030004", "fail 0 1", 0),
        ("110136010003", "commit 1 1", 1),
        ("110136020003", "suspend 0 1", 2),
        ("110136010006", "fail 0 1", 3),
        ("110136030003", "fail 0 1", 3),
    ] {
        assert_eq!(walked(sheet, Some(&graph), piece), (said.into(), Some(edge)), "{piece}");
    }
}
