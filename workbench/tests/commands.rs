//! The commands as a user runs them, on document 01's example.

mod common;

use common::Folder;

const GRAPH: &str = "\
graph 2, 2 rules, 6 nodes
name one = 1
name two = 2
0: argument 1
   one     -> 1
   neither -> 2
   unknown -> 1
1: argument 2
   two     -> 3
   neither -> 2
   unknown -> 3
2: execute 1  -- 1: (X, X)
3: argument 1 = argument 2
   no    -> 4
   other -> 5
4: execute 2  -- 2: (one, two)
5: suspend
";

const ANSWERS: &str = "\
(one, two)  commit 2
    rule 2: (one, two)
    3 edges
(?, one)  execute 1
    rule 1: (X, X)
    2 edges, waits for argument 1 = argument 2
(?, ?)  suspend
    3 edges, waits for argument 1; for argument 2; for argument 1 = argument 2
(three, four)  fail
    1 edge
";

const PIECES: [&str; 4] = ["(one, two)", "(?, one)", "(?, ?)", "(three, four)"];

#[test]
fn check_says_what_files_hold() {
    let folder = Folder::new("check");
    folder.write("tray.pieces", "(one, two)\n\n(?, one) -- the first reading is late\n");
    folder.says(&["build", "example.sheet", "-o", "graph.bin"]);
    let words = ["check", "--sheet", "example.sheet", "example.sheet", "tray.pieces", "graph.bin"];
    let said = "example.sheet: sheet, 2 arguments, 2 rules, 3 tests; its graph has 6 nodes, 51 bytes\n\
                tray.pieces: 2 pieces of 2 arguments\ngraph.bin: graph, 6 nodes, 51 bytes\n";
    assert_eq!(folder.says(&words), said);
    let json = "[\n  {\n    \"file\": \"example.sheet\",\n    \"kind\": \"sheet\",\n    \"accepted\": true,\n    \
                \"arity\": 2,\n    \"rules\": 2,\n    \"tests\": 3,\n    \"nodes\": 6,\n    \"bytes\": 51\n  }\n]\n";
    assert_eq!(folder.says(&["check", "--json", "example.sheet"]), json);
}

#[test]
fn an_accepted_sheet_may_have_no_graph() {
    let folder = Folder::new("no-graph");
    // The second argument has the numbers 1 to 16 in another order: runs of one and of the other leave many sets of rules.
    let rules = (1..=16).map(|rule| format!("{rule}: ({rule}, {}, {rule})\n", 5 * rule % 17));
    folder.write("wide.sheet", format!("sheet 3\n{}", rules.collect::<String>()));
    let said =
        "wide.sheet: sheet, 3 arguments, 16 rules, 3 tests; its graph is refused 18: Has the graph at most \
                1,024 nodes?\n";
    assert_eq!(folder.says(&["check", "wide.sheet"]), said);
    folder.complains(
        &["build", "wide.sheet"],
        1,
        "wide.sheet: refused 18: Has the graph at most 1,024 nodes?\n",
    );
}

#[test]
fn bytes_and_text_are_inverse() {
    let folder = Folder::new("bytes");
    let hex = "10 02 02\n24 00 24 00\n21 00 01 21 00 02\n";
    assert_eq!(folder.says(&["bytes", "example.sheet"]), hex);
    assert_eq!(folder.says(&["bytes", "example.sheet", "-o", "sheet.bin"]), "");
    assert_eq!(folder.read("sheet.bin"), [16, 2, 2, 0x24, 0, 0x24, 0, 0x21, 0, 1, 0x21, 0, 2]);
    assert_eq!(folder.says(&["text", "sheet.bin"]), "sheet 2\n1: (X, X)\n2: (#1, #2)\n");
    let named = "sheet 2\nname one = 1\nname two = 2\n1: (X, X)\n2: (one, two)\n";
    assert_eq!(folder.says(&["text", "--sheet", "example.sheet", "sheet.bin"]), named);
    folder.write("tray.pieces", "name ring = 9\n(#1, ring(?, 180))\n(?, ?)\n");
    assert_eq!(folder.says(&["bytes", "tray.pieces", "-o", "tray.bin"]), "");
    assert_eq!(folder.says(&["text", "tray.bin"]), "(#1, #9(?, 180))\n(?, ?)\n");
    assert_eq!(folder.says(&["text", "tray.pieces"]), "name ring = 9\n(#1, ring(?, 180))\n(?, ?)\n");
    let json =
        "{\n  \"kind\": \"sheet\",\n  \"length\": 13,\n  \"bytes\": \"10020224002400210001210002\"\n}\n";
    assert_eq!(folder.says(&["bytes", "--json", "example.sheet"]), json);
}

const OURS: &str = "\
-- As we write it.
sheet 3
name brass = 3
name silver = 4
1: (Core, Core:5..9, Rest)
2: (brass, 7, _)   -- the token
";

const THEIRS: &str = "\
sheet 3
name messing = 3
1: (V7:0..9, V7:5..65535, _)
2: (messing, Y:7, Z)
";

#[test]
fn two_offices_have_one_tidy_sheet() {
    let folder = Folder::new("tidy");
    folder.write("ours.sheet", OURS);
    folder.write("theirs.sheet", THEIRS);
    let tidy = |name: &str| format!("sheet 3\nname {name} = 3\n1: (X:5..9, X:5..9, _)\n2: ({name}, 7, _)\n");
    assert_eq!(folder.says(&["tidy", "ours.sheet"]), tidy("brass"));
    assert_eq!(folder.says(&["tidy", "theirs.sheet"]), tidy("messing"));
    assert_eq!(folder.says(&["tidy", "ours.sheet", "-o", "tidy.sheet"]), "");
    assert_eq!(folder.read("tidy.sheet"), tidy("brass").as_bytes());
    assert_eq!(folder.says(&["tidy", "tidy.sheet"]), tidy("brass"));
    assert_eq!(folder.says(&["tidy", "ours.sheet", "-o", "ours.bin"]), "");
    assert_eq!(folder.says(&["tidy", "theirs.sheet", "-o", "theirs.bin"]), "");
    let hex = "10030225000005000925000005000920210003220007000720";
    assert_eq!(voltunnis_generate::bytes::to_hex(&folder.read("ours.bin")), hex);
    assert_eq!(folder.read("theirs.bin"), folder.read("ours.bin"));
    assert_eq!(folder.says(&["tidy", "ours.bin"]), tidy("#3").replace("name #3 = 3\n", ""));
    let json = folder.says(&["tidy", "--json", "theirs.sheet"]);
    assert!(json.starts_with("{\n  \"kind\": \"sheet\",\n  \"length\": 25,\n"), "{json}");
    assert!(json.contains(&format!("\"bytes\": \"{hex}\"")), "{json}");
    folder.write("low.sheet", "sheet 1\n1: (X:9..5)\n");
    let refused = "low.sheet:2:5: refused 7: Is low at most high?\n  2 | 1: (X:9..5)\n    |     ^^^^^^\n";
    folder.complains(&["tidy", "low.sheet"], 1, refused);
}

#[test]
fn graphs_are_built_and_shown_in_words() {
    let folder = Folder::new("build");
    assert_eq!(folder.says(&["build", "example.sheet", "-o", "graph.bin"]), "");
    assert_eq!(folder.read("graph.bin").len(), 51);
    assert_eq!(folder.says(&["text", "graph.bin", "--sheet", "example.sheet"]), GRAPH);
    let plain = folder.says(&["text", "graph.bin"]);
    assert!(plain.starts_with("graph 2, 2 rules, 6 nodes\n0: argument 1\n   #1      -> 1\n"), "{plain}");
    // The words are a notation too: they come back as the same bytes.
    folder.write("words.graph", GRAPH);
    folder.says(&["bytes", "words.graph", "--sheet", "example.sheet", "-o", "again.bin"]);
    assert_eq!(folder.read("again.bin"), folder.read("graph.bin"));
    assert_eq!(folder.says(&["build", "example.sheet"]).lines().nth(3), Some("42 01"));
}

#[test]
fn standard_input_is_read_as_text_or_bytes() {
    let folder = Folder::new("stdin");
    let ran = folder.run_with(&["check", "-"], common::EXAMPLE.as_bytes());
    assert_eq!(ran.stdout, "-: sheet, 2 arguments, 2 rules, 3 tests; its graph has 6 nodes, 51 bytes\n");
    let graph = folder.output(&["build", "example.sheet", "-o", "-"], b"").stdout;
    let ran = folder.run_with(&["text", "--bytes", "--sheet", "example.sheet", "-"], &graph);
    assert_eq!((ran.status, ran.stdout.as_str()), (0, GRAPH));
}

#[test]
fn try_says_the_four_answers() {
    let folder = Folder::new("try");
    let words: Vec<&str> = ["try", "example.sheet"].into_iter().chain(PIECES).collect();
    assert_eq!(folder.says(&words), ANSWERS);
    folder.write("tray.pieces", PIECES.join("\n"));
    assert_eq!(folder.says(&["try", "example.sheet", "--pieces", "tray.pieces"]), ANSWERS);
    folder.says(&["bytes", "example.sheet", "-o", "sheet.bin"]);
    let said = folder.says(&["try", "sheet.bin", "(#1, #2)"]);
    assert_eq!(said, "(#1, #2)  commit 2\n    rule 2: (#1, #2)\n    3 edges\n");
    let json = folder.says(&["try", "--json", "example.sheet", "(?, one)"]);
    let expected =
        "[\n  {\n    \"piece\": \"(?, one)\",\n    \"answer\": \"execute\",\n    \"rule\": 1,\n    \
                    \"written\": \"1: (X, X)\",\n    \"edges\": 2,\n    \"wait\": \"0000000000000004\",\n    \
                    \"waits\": [\"argument 1 = argument 2\"]\n  }\n]\n";
    assert_eq!(json, expected);
}

#[test]
fn answers_are_coloured_only_when_asked_for() {
    let folder = Folder::new("colour");
    let run = |name: &str, value: &str| {
        let mut command = std::process::Command::new(env!("CARGO_BIN_EXE_vt"));
        command.args(["try", "example.sheet", "(?, ?)"]).current_dir(&folder.0).env("CLICOLOR_FORCE", "1");
        String::from_utf8(command.env(name, value).output().expect("vt runs").stdout).expect("text")
    };
    let said = "\u{1b}[1m(?, ?)\u{1b}[0m  \u{1b}[1;33msuspend\u{1b}[0m\n    \
                3 edges, waits for argument 1; for argument 2; for argument 1 = argument 2\n";
    assert_eq!(run("TERM", "xterm"), said);
    assert!(!run("NO_COLOR", "1").contains('\u{1b}'));
}

#[test]
fn explain_goes_step_by_step() {
    let folder = Folder::new("explain");
    let said = "\
(?, one)

node  asks        finds  takes    to  rules left
   0  argument 1  ?      unknown   1  1 2
   1  argument 2  one    neither   2  1
   2  execute 1

execute 1 after 2 edges: rule 1 is left, and not all its tests are known yet
  rule 1: (X, X)
    argument 1 = argument 2  ? and one  not known
waits for argument 1 = argument 2
";
    assert_eq!(folder.says(&["explain", "example.sheet", "(?, one)"]), said);
    let failed = folder.says(&["explain", "example.sheet", "(three, four)"]);
    assert!(
        failed.contains("fail after 1 edge: rule 1 is left, and a test of it is contradicted\n"),
        "{failed}"
    );
    let json = folder.says(&["explain", "--json", "example.sheet", "(one, two)"]);
    for part in ["\"end\": 4", "\"takes\": \"no\"", "\"left\": [2]", "\"truth\": \"holds\""] {
        assert!(json.contains(part), "{part} in {json}");
    }
}

#[test]
fn another_makers_graph_is_walked_too() {
    let folder = Folder::new("graph");
    // It asks nothing and says execute 1: accepted, though it is not the sheet's own.
    folder.write("theirs.graph", "graph 2, 2 rules, 1 node\n0: execute 1\n");
    let said = "(one, two)  fail\n    0 edges\n";
    assert_eq!(folder.says(&["try", "--graph", "theirs.graph", "example.sheet", "(one, two)"]), said);
    let why = folder.says(&["explain", "--graph", "theirs.graph", "example.sheet", "(one, two)"]);
    assert!(
        why.contains("fail after 0 edges: the graph goes to rule 1, and a test of it is contradicted\n"),
        "{why}"
    );
    // It asks for ever: question 26.
    folder.write(
        "round.graph",
        "graph 2, 2 rules, 1 node\n0: argument 1\n one -> 0\n neither -> 0\n unknown -> 0\n",
    );
    let refused = "(?, ?): refused 26: Have fewer than 64 edges been walked?\n";
    folder.complains(&["explain", "--graph", "round.graph", "example.sheet", "(?, ?)"], 1, refused);
}

#[test]
fn the_listing_of_the_example_asks_its_pair() {
    let folder = Folder::new("listing");
    folder.write("tray.pieces", PIECES.join("\n"));
    let lines = "sheet 2 2 3 6\n1 commit 2 3 0000000000000000\n2 execute 1 2 0000000000000004\n\
                 3 suspend 0 3 0000000000000007\n4 fail 0 1 0000000000000000\n";
    assert_eq!(folder.says(&["listing", "example.sheet", "tray.pieces"]), lines);
    let ran = folder.run_with(&["listing", "example.sheet"], PIECES.join("\n").as_bytes());
    assert_eq!(ran.stdout, lines);
    let ran = folder.run_with(&["listing", "example.sheet"], b"(?, ?)\n(?)\n(?, ?)\n");
    assert_eq!(ran.stdout, "sheet 2 2 3 6\n1 suspend 0 3 0000000000000007\nrefused 20\n");
    assert_eq!((ran.status, ran.stderr.as_str()), (1, "piece 2: refused 20: Are the two arities equal?\n"));
    let json = folder.run_with(&["listing", "--json", "example.sheet"], b"(?)").stdout;
    assert!(json.ends_with("\"pieces\": [],\n  \"refusal\": 20\n}\n"), "{json}");
}
