//! No input of any bytes makes `vt` panic: damaged files, noise and odd texts.

mod common;

use common::{Folder, EXAMPLE};
use voltunnis_generate::asked::Asked;
use voltunnis_generate::damage::{damaged, noise};
use voltunnis_generate::graphs::graph;
use voltunnis_generate::orders::some_table;
use voltunnis_generate::pieces::piece;
use voltunnis_generate::random::Random;
use voltunnis_generate::sheets::small_sheet;
use voltunnis_generate::stock::Stock;
use voltunnis_generate::tracks::some_list;
use voltunnis_generate::trees::piece_bytes;
use voltunnis_workbench::locate;
use voltunnis_workbench::notation::{
    parse_graph, parse_order, parse_pieces, parse_sheet, parse_track, Graph, Names, Piece, Sheet,
};

/// Runs `vt` on what may be anything: it ends with a status of its own and never by a panic.
#[track_caller]
fn survives(folder: &Folder, words: &[&str]) -> i32 {
    let output = folder.output(words, b"");
    let status = output.status.code().expect("no signal");
    let stderr = String::from_utf8_lossy(&output.stderr);
    assert!((0..=2).contains(&status), "{words:?}: status {status}: {stderr}");
    assert!(!stderr.contains("panicked"), "{words:?}: {stderr}");
    assert_eq!(stderr.is_empty(), status == 0, "{words:?}: status {status}: {stderr}");
    status
}

/// The commands that read sheets, pieces, graphs, orders and tracks.
const READING: [&[&str]; 18] = [
    &["check", "sheet.bin", "pieces.bin"],
    &["text", "sheet.bin"],
    &["tidy", "sheet.bin"],
    &["text", "graph.bin"],
    &["lift", "--sheet", "whole.bin", "graph.bin"],
    &["draw", "sheet.bin"],
    &["check", "--sheet", "whole.bin", "graph.bin", "pieces.bin"],
    &["try", "--pieces", "pieces.bin", "whole.bin"],
    &["try", "--graph", "graph.bin", "--pieces", "pieces.bin", "whole.bin"],
    &["explain", "--graph", "graph.bin", "whole.bin", "(?, !, #1(?, !))"],
    &["listing", "sheet.bin", "pieces.bin"],
    &["check", "--sheet", "whole.bin", "order.bin"],
    &["text", "order.bin"],
    &["try", "--order", "order.bin", "--pieces", "pieces.bin", "whole.bin"],
    &["check", "--positions", "track.bin"],
    &["text", "--positions", "track.bin"],
    &["text", "track.bin"],
    &["order", "track.bin"],
];

#[test]
fn damaged_files_are_refused_or_read() {
    let folder = Folder::new("damaged");
    let mut random = Random::new(0x6461_6d70);
    let mut met = [0; 3];
    for round in 0..120 {
        let tree = small_sheet(&mut random, Stock::FULL);
        let whole = tree.bytes();
        let hurt = if round % 4 == 0 { noise(&mut random, 0x10) } else { damaged(&mut random, &whole) };
        folder.write("whole.bin", &whole);
        folder.write("sheet.bin", &hurt);
        let pieces = piece_bytes(&piece(&mut random, &tree, Stock::FULL));
        folder.write("pieces.bin", damaged(&mut random, &pieces));
        folder.write("graph.bin", graph(&mut random, &Asked::of(&tree), || None));
        let order = some_table(&mut random);
        folder.write("order.bin", if round % 3 == 0 { damaged(&mut random, &order) } else { order });
        let track = some_list(&mut random);
        folder.write("track.bin", if round % 3 == 0 { damaged(&mut random, &track) } else { track });
        for words in READING {
            met[survives(&folder, words) as usize] += 1;
        }
    }
    assert!(met[0] > 100 && met[1] > 100, "{met:?}");
}

#[test]
fn bytes_taken_as_text_are_refused_or_read() {
    let folder = Folder::new("odd");
    let mut random = Random::new(0x6f64_6421);
    for _ in 0..100 {
        folder.write("odd.sheet", damaged(&mut random, EXAMPLE.as_bytes()));
        folder.write("odd.txt", (0..random.below(40)).map(|_| random.byte()).collect::<Vec<u8>>());
        survives(&folder, &["check", "odd.sheet"]);
        survives(&folder, &["check", "odd.txt"]);
        survives(&folder, &["text", "--bytes", "odd.txt"]);
    }
    folder.write("empty.sheet", "");
    assert_eq!(survives(&folder, &["check", "empty.sheet"]), 1);
    assert_eq!(survives(&folder, &["check", "."]), 2);
    assert_eq!(survives(&folder, &["try", "example.sheet", "\u{fffd}\u{0}("][..2]), 2);
}

/// Pieces of texts, of which odd ones are made.
const CHIPS: [&str; 41] = [
    "order\n",
    "track\n",
    " at ",
    "rest",
    "argument 2",
    "sheet",
    "graph",
    "name",
    "(",
    ")",
    ",",
    ":",
    "=",
    "..",
    ".",
    "?",
    "!",
    "_",
    "->",
    "/",
    "#",
    "#17",
    "#3..#9",
    "#99999",
    "--",
    "\n",
    " ",
    "1",
    "2",
    "65536",
    "X",
    "V7",
    "V300",
    "one",
    "argument",
    "place",
    "part",
    "neither",
    "unknown",
    "execute",
    "ü@\t",
];

#[test]
fn parsers_take_any_text() {
    let mut random = Random::new(0x7465_7874);
    for round in 0..60_000 {
        let heads = [
            "",
            "sheet 2\n",
            "graph 1, 1 rule, 2 nodes\n0: ",
            "name a = 1\n(",
            "order\nargument 1",
            "track\nargument 1 at 5",
        ];
        let head = heads[round % heads.len()];
        let text: String = [head]
            .into_iter()
            .chain((0..random.below(24)).map(|_| random.pick(&CHIPS)))
            .collect::<Vec<_>>()
            .join("");
        let faults = [
            parse_sheet(&text).err(),
            parse_pieces(&text, &Names::default()).err(),
            parse_graph(&text, &Names::default()).err(),
            parse_order(&text).err(),
            parse_track(&text).err(),
        ];
        for fault in faults.into_iter().flatten() {
            assert!(fault.show("odd", &text).lines().count() >= 3, "{text:?}");
        }
    }
}

#[test]
fn deep_nesting_is_no_trouble() {
    let deep = format!("sheet 1\n1: ({}", "#1(".repeat(100_000));
    assert!(parse_sheet(&deep).unwrap_err().message.starts_with("expected at most 64 parentheses"));
    let sheet: Vec<u8> = [0x10, 1, 1].into_iter().chain([0x23, 0, 1, 1].repeat(100_000)).collect();
    assert!(Sheet::read(&sheet).is_err());
    let refusal = voltunnis::check_sheet(&sheet).expect_err("a refusal");
    assert!(matches!(locate::in_sheet(&sheet, refusal), locate::Where::Record { index: 3, .. }));
    let piece: Vec<u8> = [0x11, 1].into_iter().chain([0x33, 0, 1, 1].repeat(100_000)).collect();
    assert!(Piece::read(&piece).is_err());
    assert!(Graph::read(&[0x12, 1, 1, 0xff, 0xff]).is_err());
}

#[test]
fn a_reader_that_stops_reading_is_no_trouble() {
    let folder = Folder::new("pipe");
    folder.write("zeros.bin", voltunnis_generate::known::zeros_and_ones(32));
    let line = format!("'{}' draw zeros.bin | head -n 1", env!("CARGO_BIN_EXE_vt"));
    let output =
        std::process::Command::new("sh").args(["-c", &line]).current_dir(&folder.0).output().expect("sh");
    assert_eq!(String::from_utf8_lossy(&output.stdout), "digraph decisions {\n");
    assert_eq!(String::from_utf8_lossy(&output.stderr), "");
}
