//! Every message: faults of texts and refusals, each with its line, from faults.txt; and wrong use.

mod common;

use common::Folder;

/// Each case is a file's name, its text, and what `vt check` says about it.
const FAULTS: &str = include_str!("faults.txt");

#[test]
fn faults_and_refusals_are_shown_where_they_are() {
    let folder = Folder::new("faults");
    let mut count = 0;
    for case in FAULTS.split("==== ").skip(1) {
        let (name, rest) = case.split_once('\n').expect("a name and a text");
        let (text, said) = rest.split_once("----\n").expect("a text and what is said");
        folder.write(name, text);
        folder.complains(&["check", "--sheet", "example.sheet", name], 1, said);
        count += 1;
    }
    assert!(count > 60, "{count} cases");
}

#[test]
fn refusals_of_bytes_name_the_byte() {
    let folder = Folder::new("byte");
    let refused = |name: &str, bytes: &[u8], said: &str| {
        folder.write(name, bytes);
        folder.complains(&["check", "--sheet", "example.sheet", name], 1, &format!("{name}{said}"));
    };
    refused("a.bin", &[], ": refused 1: Does it begin with a whole 10 record?\n  byte 0: the end\n");
    refused(
        "b.bin",
        &[0x10, 1, 2, 0x20, 0x22, 0, 9, 0, 5],
        ": refused 7: Is low at most high?\n  byte 4, rule 2: 22 00 09 00 05\n",
    );
    refused(
        "c.bin",
        &[0x10, 1, 1, 0x28],
        ": refused 4: Is it a whole record of kinds 20 to 27?\n  byte 3: 28\n",
    );
    refused("d.bin", &[0x10, 1, 0, 0x20, 0x20], ": refused 10: Are no bytes left?\n  byte 3: 20 20\n");
    refused(
        "e.bin",
        &[0x11, 1, 0x30, 0x11],
        ", piece 2: refused 12: Does it begin with a whole 11 record?\n  byte 0: 11\n",
    );
    refused(
        "f.bin",
        &[0x11, 2, 0x30, 0x37],
        ", piece 1: refused 14: Is each term a whole record of kinds 30 to 36?\n  byte 3: 37\n",
    );
    refused("g.bin", &[0x11, 1, 0x30], ", piece 1: refused 20: Are the two arities equal?\n");
    folder.write("i.bin", [0x12, 1, 1, 0, 1, 0x44]);
    let whole = "i.bin: byte 5: expected a whole record of kinds 40 to 43 or 47, with its cases\n";
    folder.complains(&["text", "i.bin"], 1, whole);
    refused("h.bin", &[0x12, 2, 2, 0, 1, 0x41, 0x40], ": refused 25: Are no bytes left?\n  byte 6: 40\n");
}

#[test]
fn refusals_of_spans_name_the_byte() {
    let folder = Folder::new("span-byte");
    let refused = |name: &str, bytes: &[u8], said: &str| {
        folder.write(name, bytes);
        folder.complains(&["check", "--sheet", "example.sheet", name], 1, &format!("{name}{said}"));
    };
    let low = ", piece 1: refused 32: If a span, is its low at most its high?\n  byte 3: 34 00 ef 00 e7\n";
    refused("j.bin", &[0x11, 2, 0x30, 0x34, 0, 239, 0, 231], low);
    // Before the next term, of which a byte is missing; but not before all of the span is there.
    refused("k.bin", &[0x11, 3, 0x30, 0x34, 0, 239, 0, 231, 0x31, 0], low);
    refused(
        "l.bin",
        &[0x11, 2, 0x30, 0x34, 0, 239, 0],
        ", piece 1: refused 14: Is each term a whole record of kinds 30 to 36?\n  byte 3: 34 00 ef 00\n",
    );
}

#[test]
fn refusals_of_series_name_the_byte() {
    let folder = Folder::new("series-byte");
    let refused = |name: &str, bytes: &[u8], said: &str| {
        folder.write(name, bytes);
        folder.complains(&["check", "--sheet", "example.sheet", name], 1, &format!("{name}{said}"));
    };
    refused(
        "m.bin",
        &[0x10, 1, 2, 0x26, 0, 5, 0, 5, 0x26, 0, 9, 0, 5],
        ": refused 7: Is low at most high?\n  byte 8, rule 2: 26 00 09 00 05\n",
    );
    refused(
        "n.bin",
        &[0x10, 1, 1, 0x26, 0, 9, 0],
        ": refused 4: Is it a whole record of kinds 20 to 27?\n  byte 3: 26 00 09 00\n",
    );
}

#[test]
fn refusals_of_gauges_name_the_byte() {
    let folder = Folder::new("gauge-byte");
    let refused = |name: &str, bytes: &[u8], said: &str| {
        folder.write(name, bytes);
        folder.complains(&["check", "--sheet", "example.sheet", name], 1, &format!("{name}{said}"));
    };
    refused(
        "o.bin",
        &[0x10, 1, 2, 0x27, 3, 0, 5, 0, 5, 0x27, 3, 0, 9, 0, 5],
        ": refused 7: Is low at most high?\n  byte 9, rule 2: 27 03 00 09 00 05\n",
    );
    refused(
        "p.bin",
        &[0x10, 1, 1, 0x27, 3, 0, 9, 0],
        ": refused 4: Is it a whole record of kinds 20 to 27?\n  byte 3: 27 03 00 09 00\n",
    );
    // A number on a gauge that is whole, then a span the wrong way round, then a number that is not whole.
    let low = ", piece 1: refused 32: If a span, is its low at most its high?\n  byte 6: 34 00 ef 00 e7\n";
    refused("q.bin", &[0x11, 3, 0x36, 255, 0, 9, 0x34, 0, 239, 0, 231, 0x36, 3, 0], low);
    let whole = ", piece 1: refused 14: Is each term a whole record of kinds 30 to 36?\n  byte 6: 36 03 00\n";
    refused("r.bin", &[0x11, 2, 0x36, 255, 0, 9, 0x36, 3, 0], whole);
}

/// As many cases as two bytes count can be written, one more cannot.
#[test]
fn a_switch_has_as_many_cases_as_two_bytes_count() {
    let folder = Folder::new("cases");
    let graph = |count: u32| {
        let cases: String = (0..count).map(|id| format!(" {} -> 0\n", id % 65_536)).collect();
        format!("graph 2, 2 rules, 1 node\n0: argument 1\n{cases} neither -> 0\n unknown -> 0\n")
    };
    folder.write("most.graph", graph(65_535));
    let said = "most.graph: graph, 1 node, 524294 bytes\n";
    assert_eq!(folder.says(&["check", "--sheet", "example.sheet", "most.graph"]), said);
    folder.write("more.graph", graph(65_536));
    let more =
        "more.graph:2:1: expected at most 65535 cases, as many as two bytes count\n  2 | 0: argument 1\n    \
                | ^^^^^^^^^^^^^\n";
    folder.complains(&["check", "--sheet", "example.sheet", "more.graph"], 1, more);
}

#[test]
fn refusals_are_said_to_programs_too() {
    let folder = Folder::new("refusal-json");
    folder.write("low.sheet", "sheet 1\n1: (9..5)\n");
    let ran = folder.run(&["build", "--json", "low.sheet"]);
    let json = "{\n  \"file\": \"low.sheet\",\n  \"accepted\": false,\n  \"refusal\": 7,\n  \
                \"question\": \"Is low at most high?\",\n  \"line\": 2,\n  \"column\": 5\n}\n";
    assert_eq!((ran.status, ran.stdout.as_str(), ran.stderr.as_str()), (1, json, ""));
    folder.write("low.pieces", "(?, 239..231?)\n");
    let ran = folder.run(&["check", "--json", "low.pieces"]);
    let parts =
        ["\"refusal\": 32", "\"question\": \"If a span, is its low at most its high?\"", "\"column\": 5\n"];
    assert!(parts.iter().all(|part| ran.stdout.contains(part)), "{}", ran.stdout);
    folder.write("bad.sheet", "sheet 1\n1: 9\n");
    let ran = folder.run(&["check", "--json", "bad.sheet"]);
    assert!(ran.stdout.contains("\"message\": \"expected `(`, found `9`\""), "{}", ran.stdout);
}

#[test]
fn one_bad_piece_does_not_hide_the_others() {
    let folder = Folder::new("bad-piece");
    let ran = folder.run(&["try", "example.sheet", "(one", "(?, ?)", "(?)"]);
    assert_eq!(
        ran.stdout,
        "(?, ?)  suspend\n    3 edges, waits for argument 1; for argument 2; for argument 1 = argument 2\n"
    );
    let said = "piece:1:5: expected `,` or `)`, found the end of the line\n  1 | (one\n    |     ^\n\
                (?): refused 20: Are the two arities equal?\n  the piece has 1 argument, the sheet 2\n";
    assert_eq!((ran.status, ran.stderr.as_str()), (1, said));
}

#[test]
fn wrong_use_is_told() {
    let folder = Folder::new("use");
    let wrong = |words: &[&str], said: &str| folder.complains(words, 2, said);
    wrong(&["chek"], "vt: unknown command `chek`; did you mean `check`?\nSee `vt --help`.\n");
    wrong(&["dance"], "vt: unknown command `dance`\nSee `vt --help`.\n");
    wrong(&["check"], "vt: expected a file\nSee `vt check --help`.\n");
    wrong(
        &["check", "--jsno"],
        "vt: unknown option `--jsno`; did you mean `--json`?\nSee `vt check --help`.\n",
    );
    wrong(&["check", "-x"], "vt: unknown option `-x`\nSee `vt check --help`.\n");
    wrong(&["check", "--json=1"], "vt: option `--json` takes no value\nSee `vt check --help`.\n");
    wrong(&["build", "example.sheet", "-o"], "vt: option `-o` needs a value: FILE\nSee `vt build --help`.\n");
    wrong(&["build"], "vt: expected one sheet\nSee `vt build --help`.\n");
    wrong(&["tidy"], "vt: expected one sheet\nSee `vt tidy --help`.\n");
    wrong(&["order"], "vt: expected one track drawing\nSee `vt order --help`.\n");
    wrong(&["bytes"], "vt: expected one file\nSee `vt bytes --help`.\n");
    wrong(&["text", "a", "b"], "vt: expected one file\nSee `vt text --help`.\n");
    wrong(
        &["text", "--sheet", "-", "-"],
        "vt: standard input can be read once only\nSee `vt text --help`.\n",
    );
    wrong(&["draw"], "vt: expected one sheet\nSee `vt draw --help`.\n");
    wrong(&["try"], "vt: expected a sheet and a piece\nSee `vt try --help`.\n");
    wrong(
        &["try", "example.sheet"],
        "vt: expected a piece, as '(?, 180)', or --pieces FILE\nSee `vt try --help`.\n",
    );
    wrong(&["explain", "example.sheet"], "vt: expected a sheet and one piece\nSee `vt explain --help`.\n");
    wrong(&["listing"], "vt: expected a sheet, and pieces or nothing\nSee `vt listing --help`.\n");
    wrong(&["listing", "-"], "vt: standard input can be read once only\nSee `vt listing --help`.\n");
    wrong(&["check", "none.sheet"], "vt: none.sheet: No such file or directory\n");
    wrong(&["build", "example.sheet", "-o", "no/where.bin"], "vt: no/where.bin: No such file or directory\n");
    folder.write("graph.bin", [0x12, 2, 2, 0, 1, 0x41]);
    let needs = "vt: graph.bin is a graph: add its sheet, --sheet SHEET\nSee `vt check --help`.\n";
    wrong(&["check", "graph.bin"], needs);
    folder.write("bytes.sheet", [0x10, 1, 0]);
    let bytes = "vt: bytes.sheet: not a text; it begins as bytes do: call it .bin or say --bytes\n";
    wrong(&["check", "bytes.sheet"], bytes);
    folder.write("latin.sheet", b"sheet 1 -- M\xfcnze\n");
    wrong(&["check", "latin.sheet"], "vt: latin.sheet: not a text: byte 12 is no character of UTF-8\n");
}

#[test]
fn help_is_given() {
    let folder = Folder::new("help");
    let all = folder.says(&["--help"]);
    assert_eq!(folder.says(&["help"]), all);
    assert_eq!((folder.run(&[]).status, folder.run(&[]).stderr), (2, all.clone()));
    for name in
        ["check", "bytes", "text", "tidy", "order", "build", "lift", "draw", "try", "explain", "listing"]
    {
        assert!(all.contains(&format!("\n  {name} ")), "{name}");
        let help = folder.says(&[name, "--help"]);
        assert!(help.starts_with(&format!("vt {name}: ")) && help.contains("\nExamples:\n  vt "), "{help}");
        assert_eq!(folder.says(&["help", name]), help);
        assert_eq!(folder.says(&[name, "-h"]), help);
        assert!(help.lines().all(|line| line.chars().count() <= 110), "{help}");
    }
    assert!(folder.says(&["--version"]).starts_with("vt 0."));
}
