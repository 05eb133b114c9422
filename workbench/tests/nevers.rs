//! Readings that will never come, `!`, as a user writes, tries and explains them.

mod common;

use common::Folder;
use std::path::Path;
use voltunnis_generate::bytes::{from_hex, to_hex};
use voltunnis_workbench::notation::{parse_piece, print_piece, Graph, Names, Piece, Sheet};
use voltunnis_workbench::retrace::{retrace, Way};
use voltunnis_workbench::sheet_tests::SheetTests;

/// The tutorial's coins.
const COINS: &str = include_str!("../examples/coins.sheet");

fn coins(name: &str) -> Folder {
    let folder = Folder::new(name);
    folder.write("coins.sheet", COINS);
    folder
}

/// Alone, beside others and inside compounds.
#[test]
fn nevers_come_back_as_they_were() {
    for (hex, text) in [
        ("110135", "(!)"),
        ("1103353035", "(!, ?, !)"),
        ("1102330001023533000201353400050009", "(#1(!, #2(!)), 5..9?)"),
    ] {
        let bytes = from_hex(hex);
        assert_eq!(print_piece(&bytes).as_deref(), Ok(text));
        let parsed = parse_piece(text, &Names::default()).expect("a piece");
        assert_eq!(to_hex(&parsed.bytes()), hex, "{text}");
    }
    let spaced = parse_piece("( ! ,!)", &Names::default()).expect("a piece");
    assert_eq!(to_hex(&spaced.bytes()), "11023535");
}

#[test]
fn pieces_with_nevers_are_bytes_and_back() {
    let folder = coins("never-bytes");
    let text = "(nickel, !, 18)\n(ring(!, ?), 5..9?, !)\n";
    folder.write("tray.pieces", text);
    let hex = "11 03 31 00 02 35 32 00 12\n11 03 33 00 04 02 35 30 34 00 05 00 09 35\n";
    assert_eq!(folder.says(&["bytes", "--sheet", "coins.sheet", "tray.pieces"]), hex);
    folder.says(&["bytes", "--sheet", "coins.sheet", "tray.pieces", "-o", "tray.bin"]);
    let again = folder.says(&["text", "--sheet", "coins.sheet", "tray.bin"]);
    assert_eq!(again, format!("name nickel = 2\nname ring = 4\n{text}"));
    assert_eq!(folder.says(&["check", "tray.bin"]), "tray.bin: 2 pieces of 3 arguments\n");
}

#[test]
fn a_machine_without_a_coil_does_not_wait() {
    let folder = coins("never-try");
    let said = "\
(?, 162, 15)  execute 1
    rule 1: (copper, 160..165, _)
    2 edges, waits for argument 1
(!, 162, 15)  fail
    1 edge
(copper, 162, !)  commit 1
    rule 1: (copper, 160..165, _)
    1 edge
(?, 215, !)  fail
    3 edges
(ring(?, ?), 232, !)  execute 4
    rule 4: (ring(nickel, brass), 230..236, _)
    5 edges, waits for argument 1, part 1; for argument 1, part 2
";
    let pieces = ["(?, 162, 15)", "(!, 162, 15)", "(copper, 162, !)", "(?, 215, !)", "(ring(?, ?), 232, !)"];
    let words: Vec<&str> = ["try", "coins.sheet"].into_iter().chain(pieces).collect();
    assert_eq!(folder.says(&words), said);
    folder.write("tray.pieces", pieces.join("\n"));
    let lines = "sheet 3 5 6 24\n1 execute 1 2 0000000000000001\n2 fail 0 1 0000000000000000\n\
                 3 commit 1 1 0000000000000000\n4 fail 0 3 0000000000000000\n5 execute 4 5 0000000000000006\n";
    assert_eq!(folder.says(&["listing", "coins.sheet", "tray.pieces"]), lines);
}

#[test]
fn what_will_never_come_is_explained() {
    let folder = coins("never-explain");
    let said = "\
(ring(?, !), 232, 22)

node  asks                finds       takes    to  rules left
   0  argument 1          ring(?, !)  ring/2    4  4 5
   4  argument 1, part 1  ?           unknown   7  4 5
   7  argument 1, part 2  !           neither   8  5
   8  execute 5

node 7: argument 1, part 2 never comes, so no rule with a test there is left

fail after 3 edges: rule 5 is left, and a test of it is contradicted
  rule 5: (ring(X, X), 228..234, 20..25)
    argument 1 is ring/2                     ring(?, !)  holds
    argument 2 in 228..234                   232         holds
    argument 3 in 20..25                     22          holds
    argument 1, part 1 = argument 1, part 2  ? and !     contradicted: never comes
";
    assert_eq!(folder.says(&["explain", "coins.sheet", "(ring(?, !), 232, 22)"]), said);
    let json = folder.says(&["explain", "--json", "coins.sheet", "(ring(?, !), 232, 22)"]);
    let step =
        "\"finds\": \"!\",\n      \"contain\": 0,\n      \"takes\": \"neither\",\n      \"to\": 8,\n      \
                \"left\": [5],\n      \"partly\": [],\n      \"never\": [\"argument 1, part 2\"]\n";
    assert!(json.contains(step), "{json}");
    let test = "\"finds\": \"? and !\",\n      \"truth\": \"contradicted\",\n      \"never\": [\"argument 1, part 2\"]\n";
    assert!(json.contains(test), "{json}");
    let compound = "\"finds\": \"ring(?, !)\",\n      \"truth\": \"holds\",\n      \"never\": []\n";
    assert!(json.contains(compound), "{json}");
}

#[test]
fn a_pair_that_differs_by_one_is_explained() {
    let folder = Folder::new("never-pair");
    folder.write("pair.sheet", "sheet 2\n1: (2..3, _)\n2: (X, X)\n");
    // The pair is asked although argument 1 is unknown: what argument 2 holds shows that they differ.
    let said = "\
(?, #7(!))

node  asks                     finds        takes    to  rules left
   0  argument 1               ?            unknown   2  1 2
   2  argument 1 = argument 2  ? and #7(!)  no        3  1
   3  execute 1

node 2: a part of argument 2 never comes, so argument 2 differs from every term

execute 1 after 2 edges: rule 1 is left, and not all its tests are known yet
  rule 1: (2..3, _)
    argument 1 in 2..3  ?  not known
waits for argument 1
";
    assert_eq!(folder.says(&["explain", "pair.sheet", "(?, #7(!))"]), said);
    let said = folder.says(&["explain", "pair.sheet", "(?, !)"]);
    assert!(said.contains("node 2: argument 2 never comes, so it differs from every term\n"), "{said}");
    let said = folder.says(&["explain", "pair.sheet", "(#7(!), #7(!))"]);
    let test = "    argument 1 = argument 2  #7(!) and #7(!)  contradicted: a part never comes\n";
    assert!(said.ends_with(test), "{said}");
}

/// The walk of a piece over a graph, by the library and here.
#[track_caller]
fn walked(sheet: &str, graph: Option<&str>, piece: &str) -> (String, Way) {
    let [sheet, piece] = [sheet, piece].map(from_hex);
    let graph = graph.map_or_else(|| voltunnis::graph(&sheet).expect("a graph"), from_hex);
    let library = voltunnis::answer(&sheet, &graph, &piece).map_err(u8::from);
    let tests = SheetTests::of(&Sheet::read(&sheet).expect("a sheet"));
    let way = retrace(&tests, &Graph::read(&graph).expect("a graph"), &Piece::read(&piece).expect("a piece"));
    assert_eq!(way.answer, library, "{}", to_hex(&piece));
    (library.map_or_else(|number| format!("refused {number}"), |answer| answer.to_string()), way)
}

#[test]
fn known_walks_of_nevers_are_retraced() {
    for (sheet, piece, said) in [
        // (X, X): two readings that will never come differ, and one deep inside shows beside an unknown.
        ("10020124002400", "11023535", "fail 0 0 0000000000000000"),
        ("10020124002400", "1102303300010135", "fail 0 0 0000000000000000"),
        ("10020124002400", "110233000101303300010130", "execute 1 0 0000000000000001"),
        // (_, _) asks for nothing, nor does #1(_) below its compound; every number is asked for.
        ("1002012020", "11023535", "commit 1 0 0000000000000000"),
        ("1001012300010120", "11013300010135", "commit 1 0 0000000000000000"),
        ("100101220000ffff", "110135", "fail 0 0 0000000000000000"),
        // A variable that stands once is anything, one with a range is not.
        ("1001012400", "110135", "commit 1 0 0000000000000000"),
        ("10010125000000ffff", "110135", "fail 0 0 0000000000000000"),
        // Pairs are asked after an unknown: the other place tells that they differ.
        ("10020224002400202200020003", "11023530", "execute 2 2 0000000000000001"),
        ("1002022200020002240124002400", "11023035", "execute 1 2 0000000000000001"),
        // (#5, _), (_, #1), (_, #2): both places are met, and the wait list has the unknown one alone.
        ("100203210005202021000120210002", "11023530", "suspend 0 2 0000000000000002"),
    ] {
        assert_eq!(walked(sheet, None, piece).0, said, "{sheet} {piece}");
    }
}

#[test]
fn an_unknown_settles_no_pair() {
    // Document 01's example on (?, ?): the pair is asked after both places.
    let (said, way) = walked("10020224002400210001210002", None, "11023030");
    assert_eq!(said, "suspend 0 3 0000000000000007");
    assert_eq!(
        way.steps.iter().map(|step| step.asks.words()).collect::<Vec<_>>(),
        ["argument 1", "argument 2", "argument 1 = argument 2"]
    );
    let (_, way) = walked("10020224002400202200020003", None, "11023530");
    // The second edge is the pair's "no", on which the rule with the variable is gone.
    assert_eq!((way.steps[1].asks.words().as_str(), way.steps[1].edge), ("argument 1 = argument 2", 0));
    assert_eq!((way.steps[0].left, way.steps[1].left), (0b11, 0b10));
}

/// A graph from before pairs were asked after an unknown is accepted as another maker's is, and walked as it is.
#[test]
fn an_older_graph_must_be_built_again() {
    // (X, X), (_, 2..3): argument 2 is asked, and the edge for unknown leads to suspend, node 3, or to the pair, node 2.
    let sheet = "10020224002400202200020003";
    let cases =
        "4600000000010001460000000003000246000000ffff0002460000020003000246000002ffff000246000004ffff0001";
    let older =
        format!("1202020005 43005500060001 0003 {cases} 4201 470000005500040003 41 4202").replace(' ', "");
    assert_eq!(walked(sheet, Some(&older), "11023530").0, "suspend 0 1 0000000000000001");
    let own =
        format!("1202020005 43005500060001 0002 {cases} 4201 470000005500030004 4202 41").replace(' ', "");
    assert_eq!(to_hex(&voltunnis::graph(&from_hex(sheet)).expect("a graph")), own);
    assert_eq!(walked(sheet, Some(&own), "11023530").0, "execute 2 2 0000000000000001");
}

#[test]
fn a_place_below_what_will_never_come_is_not_lacking() {
    // #1(#5) or anything; a graph that asks for the part first: #5 to execute 1, neither to execute 2, unknown to suspend.
    let sheet = "1001022300010121000520";
    let graph = "1201020004430001000100020003440005000500014201420241";
    for (piece, said) in [
        ("110135", "commit 2 1 0000000000000000"),
        ("110130", "suspend 0 1 0000000000000002"),
        ("11013300010135", "commit 2 1 0000000000000000"),
        ("1101310009", "refused 27"),
    ] {
        assert_eq!(walked(sheet, Some(graph), piece).0, said, "{piece}");
    }
    // #1(X) twice; a graph that asks for the pair alone: no to fail, other to suspend.
    let sheet = "100201230001012400230001012400";
    let graph = "12020100034700010056000100024041";
    for (piece, said) in [
        ("11023530", "fail 0 1 0000000000000000"),
        ("11023535", "fail 0 1 0000000000000000"),
        ("11023030", "suspend 0 1 0000000000000004"),
        ("110235310009", "refused 27"),
    ] {
        assert_eq!(walked(sheet, Some(graph), piece).0, said, "{piece}");
    }
}

/// What `vt conform` is left with of the mistake of another maker's program.
fn smallest(trap: &str, seed: &str) -> (String, String) {
    let folder = Folder::new(&format!("never-{trap}-{seed}"));
    let maker = Path::new(env!("CARGO_BIN_EXE_vt")).with_file_name("examples").join("maker");
    let program = format!("'{}' --wrong {trap}", maker.display());
    let ran = folder.run(&["conform", "--program", &program, "--seed", seed]);
    assert_eq!((ran.status, ran.stderr.as_str()), (1, ""), "{trap}: {}", ran.stdout);
    let call = ran.stdout.lines().nth(3).expect("the smallest call").to_string();
    let program = ran.stdout.lines().find_map(|line| line.strip_prefix("program  "));
    (call, program.expect("the program's words").to_string())
}

#[test]
fn mistakes_over_what_will_never_come_are_found() {
    let buffer = "00".repeat(35);
    let graph = "1202020005430055000100020003440000000000014700000055000400034201414202";
    let (settled, built) = (format!("build 1002022400240020210000 {buffer}"), format!("ok 5 35 {graph}"));
    for seed in ["1", "2", "3", "4", "5"] {
        for (trap, call, said) in [
            ("patient", "plain 100101210000 110135", "ok execute 1"),
            ("alike", "plain 10020124002400 11023535", "ok commit 1"),
            ("shallow", "plain 10020124002400 1102303300000135", "ok execute 1"),
            ("settled", &settled, &built),
        ] {
            assert_eq!(smallest(trap, seed), (call.into(), said.into()), "{trap}, seed {seed}");
        }
    }
}
