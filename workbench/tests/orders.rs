//! Reading orders in the commands, as a user runs them, and in `vt conform`.

mod common;

use common::Folder;
use std::path::Path;
use voltunnis_generate::bytes::to_hex;
use voltunnis_generate::orders::{last, reversed, table};

/// Argument 2 is asked before argument 1.
const BACKWARDS: &str = "order\nargument 2\n";

/// The document's example with an order in which its arguments are asked backwards.
fn folder(name: &str) -> Folder {
    let folder = Folder::new(name);
    folder.write("track.order", BACKWARDS);
    folder
}

#[test]
fn check_says_what_an_order_is() {
    let folder = folder("order-check");
    let alone = "track.order: order, all places once, each after its parent\n";
    assert_eq!(folder.says(&["check", "track.order"]), alone);
    let with =
        "track.order: order, example.sheet asks argument 2; argument 1; its graph has 6 nodes, 51 bytes\n";
    assert_eq!(folder.says(&["check", "--sheet", "example.sheet", "track.order"]), with);
    let json = folder.says(&["check", "--json", "--sheet", "example.sheet", "track.order"]);
    assert!(json.contains("\"asks\": [\"argument 2\", \"argument 1\"],\n    \"nodes\": 6"), "{json}");
    folder.write("none.sheet", "sheet 1\n1: (_)\n");
    let none = "track.order: order, none.sheet asks no place; its graph has 1 node, 7 bytes\n";
    assert_eq!(folder.says(&["check", "--sheet", "none.sheet", "track.order"]), none);
    // In another text the first word tells.
    let ran = folder.run_with(&["check", "-"], b"-- as mounted\norder\nargument 2\n");
    assert_eq!(ran.stdout, alone.replace("track.order", "-"));
}

#[test]
fn orders_are_turned_into_tables_and_back() {
    let folder = folder("order-bytes");
    assert_eq!(folder.says(&["bytes", "track.order", "-o", "order.bin"]), "");
    let mut places: Vec<u16> = (85..170).chain(0..85).chain(170..680).collect();
    assert_eq!(folder.read("order.bin"), table(&places));
    assert_eq!(folder.says(&["text", "order.bin"]), BACKWARDS);
    let hex = folder.says(&["bytes", "order.bin"]);
    assert_eq!((hex.lines().count(), hex.replace([' ', '\n'], "")), (34, to_hex(&table(&places))));
    folder.write("last.bin", table(&last(0)));
    assert_eq!(folder.says(&["text", "last.bin"]), "order\nrest\nargument 1\n");
    places.swap(0, 85);
    places.swap(84, 86);
    folder.write("early.bin", table(&places));
    let early = "early.bin: refused 30: Does none stand before its parent?\n  byte 2: 00 56\n";
    folder.complains(&["text", "early.bin"], 1, early);
    folder.write("short.bin", &table(&reversed())[2..]);
    let short = "short.bin: refused 28: Is the table 1,360 bytes?\n  byte 1358: the end\n";
    folder.complains(&["check", "short.bin"], 1, short);
    folder.write("twice.bin", [0xff; 1360]);
    let twice = "twice.bin: refused 29: Is each of its places 0 to 679, and none twice?\n  byte 0: ff ff\n";
    folder.complains(&["check", "twice.bin"], 1, twice);
}

#[test]
fn graphs_are_built_in_an_order() {
    let folder = folder("order-build");
    folder.says(&["build", "example.sheet", "--order", "track.order", "-o", "graph.bin"]);
    let words = folder.says(&["text", "graph.bin", "--sheet", "example.sheet"]);
    let begin = "graph 2, 2 rules, 6 nodes\nname one = 1\nname two = 2\n0: argument 2\n   two     -> 1\n";
    assert!(words.starts_with(begin), "{words}");
    folder.says(&["bytes", "track.order", "-o", "order.bin"]);
    folder.says(&["build", "example.sheet", "--order", "order.bin", "-o", "again.bin"]);
    assert_eq!(folder.read("again.bin"), folder.read("graph.bin"));
    let dot = folder.says(&["draw", "example.sheet", "--order", "track.order"]);
    assert_eq!(dot, folder.says(&["draw", "example.sheet", "--graph", "graph.bin"]));
    folder.write("early.order", "order\nargument 1, part 1\nargument 1\n");
    let early = "early.order:2:1: refused 30: Does none stand before its parent?\n  \
                 2 | argument 1, part 1\n    | ^^^^^^^^^^^^^^^^^^\n";
    folder.complains(&["build", "example.sheet", "--order", "early.order"], 1, early);
    let both = "vt: expected --graph or --order, not both\nSee `vt draw --help`.\n";
    folder.complains(&["draw", "example.sheet", "--graph", "graph.bin", "--order", "order.bin"], 2, both);
}

#[test]
fn answers_are_the_same_by_another_way() {
    let folder = folder("order-try");
    let said = "(?, one)  execute 1\n    rule 1: (X, X)\n    1 edge, waits for argument 1 = argument 2\n";
    assert_eq!(folder.says(&["try", "example.sheet", "--order", "track.order", "(?, one)"]), said);
    let way = "node  asks        finds  takes    to  rules left\n   0  argument 2  one    neither   2  1\n";
    let explained = folder.says(&["explain", "example.sheet", "--order", "track.order", "(?, one)"]);
    assert!(explained.contains(way), "{explained}");
    let lines = "sheet 2 2 3 6\n1 execute 1 1 0000000000000004\n2 suspend 0 3 0000000000000007\n";
    let words = ["listing", "example.sheet", "--order", "track.order"];
    assert_eq!(folder.run_with(&words, b"(?, one)\n(?, ?)\n").stdout, lines);
}

/// What `vt conform` says about the example of another maker's program that makes this mistake.
fn conform(trap: &str, seed: &str) -> String {
    let folder = Folder::new(&format!("order-{trap}"));
    let maker = Path::new(env!("CARGO_BIN_EXE_vt")).with_file_name("examples").join("maker");
    let program = format!("'{}' --wrong {trap}", maker.display());
    let ran = folder.run(&["conform", "--program", &program, "--seed", seed]);
    assert_eq!((ran.status, ran.stderr.as_str()), (1, ""), "{}", ran.stdout);
    ran.stdout
}

#[test]
fn a_program_that_does_not_heed_the_order_is_found() {
    for seed in ["1", "2"] {
        let said = conform("lowest", seed);
        let case =
            "\nsheet   sheet 2\n        1: (_, _)\n        2: (#0, #0)\norder   order\n        argument 2\n";
        assert!(said.contains(case), "{said}");
        assert!(said.contains("\nThe buffers differ first at byte 7.\n"), "{said}");
        let said = conform("hurried", seed);
        assert!(said.contains("differs: check_order\n"), "{said}");
        assert!(said.contains("\nlibrary  refused 29\nprogram  refused 30\n"), "{said}");
    }
}
