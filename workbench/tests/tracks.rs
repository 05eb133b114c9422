//! Track drawings in the commands, as a user runs them, and in `vt conform`.

mod common;

use common::Folder;
use std::path::Path;
use voltunnis_generate::bytes::to_hex;
use voltunnis_generate::tracks::list;

/// Argument 2 is read first, its part 3 behind argument 1.
const DRAWING: &str = "track\nargument 2 at 120\nargument 1 at 900\nargument 2, part 3 at 1000\n";

/// The positions of the drawing: of argument 2 from place 85 on, of its part 3 from place 128 on.
fn positions() -> Vec<u16> {
    let mut positions = vec![65535; 680];
    positions[..85].fill(900);
    positions[85..170].fill(120);
    positions[128..149].fill(1000);
    positions
}

/// The document's example and a drawing.
fn folder(name: &str) -> Folder {
    let folder = Folder::new(name);
    folder.write("drawing.track", DRAWING);
    folder
}

#[test]
fn drawings_are_turned_into_positions_and_back() {
    let folder = folder("track-bytes");
    assert_eq!(folder.says(&["bytes", "drawing.track", "-o", "positions.bin"]), "");
    assert_eq!(folder.read("positions.bin"), list(&positions()));
    let printed = "track\nargument 2         at 120\nargument 1         at 900\nargument 2, part 3 at 1000\n";
    assert_eq!(folder.says(&["text", "--positions", "positions.bin"]), printed);
    assert_eq!(folder.says(&["text", "drawing.track"]).replace("         at", " at"), DRAWING);
    for words in [&["bytes", "drawing.track"][..], &["bytes", "--positions", "positions.bin"]] {
        let hex = folder.says(words);
        assert_eq!((hex.lines().count(), hex.replace([' ', '\n'], "")), (34, to_hex(&list(&positions()))));
    }
    let json = folder.says(&["text", "--json", "--positions", "positions.bin"]);
    assert!(json.starts_with("{\n  \"kind\": \"track\",\n  \"text\": \"track\\nargument 2 "), "{json}");
    let json = folder.says(&["bytes", "--json", "drawing.track"]);
    assert!(
        json.starts_with("{\n  \"kind\": \"track\",\n  \"length\": 1360,\n  \"bytes\": \"0384"),
        "{json}"
    );
}

#[test]
fn check_says_what_a_drawing_is() {
    let folder = folder("track-check");
    let said = "drawing.track: track, 680 places at 4 positions, 120 to 65535\n";
    assert_eq!(folder.says(&["check", "drawing.track"]), said);
    let json = folder.says(&["check", "--json", "drawing.track"]);
    let fields =
        "\"kind\": \"track\",\n    \"accepted\": true,\n    \"positions\": 4,\n    \"first\": 120,\n    \
                  \"last\": 65535\n";
    assert!(json.contains(fields), "{json}");
    folder.write("zeros.bin", [0; 1360]);
    let zeros = "zeros.bin: track, 680 places at 1 position, 0\n";
    assert_eq!(folder.says(&["check", "--positions", "zeros.bin"]), zeros);
    // In another text the first word tells; with the option standard input holds bytes.
    let text = folder.run_with(&["check", "-"], b"-- as mounted\ntrack\nplace 0 at 1\n");
    assert_eq!(text.stdout, "-: track, 680 places at 2 positions, 1 to 65535\n");
    let bytes = folder.run_with(&["text", "--positions", "-"], &list(&[7; 680]));
    let all: String = (1..=8).map(|argument| format!("argument {argument} at 7\n")).collect();
    assert_eq!(bytes.stdout, format!("track\n{all}"));
}

#[test]
fn bytes_of_another_length_are_no_positions() {
    let folder = folder("track-length");
    for (length, at) in [(0, 0), (1, 0), (1358, 1358), (1359, 1358)] {
        folder.write("short.bin", vec![3; length]);
        let short = format!("short.bin: byte {at}: expected a wide position for each of 680 places\n");
        for command in ["check", "text", "bytes"] {
            folder.complains(&[command, "--positions", "short.bin"], 1, &short);
        }
    }
    folder.write("long.bin", [3; 1361]);
    let long = "long.bin: byte 1360: expected no further bytes\n";
    folder.complains(&["text", "--positions", "long.bin"], 1, long);
}

#[test]
fn positions_are_told_by_the_option_alone() {
    let folder = folder("track-told");
    // A list that begins as a sheet does, and one that is a table of all places as well.
    folder.write("sheet.bin", [0x10; 1360]);
    assert!(folder.says(&["text", "--positions", "sheet.bin"]).starts_with("track\nargument 1 at 4112\n"));
    assert!(folder.run(&["check", "sheet.bin"]).stderr.starts_with("sheet.bin: refused 2: "));
    folder.write("both.bin", list(&(0..680).collect::<Vec<u16>>()));
    assert_eq!(folder.says(&["text", "both.bin"]), "order\n");
    let track = folder.says(&["text", "--positions", "both.bin"]);
    assert!(
        track.starts_with("track\nargument 1             at 0\nargument 1, part 1     at 1\n"),
        "{track}"
    );
    // Where a drawing is wanted, bytes are positions; where an order is, they are a table.
    assert_eq!(folder.says(&["order", "both.bin"]), "order\n");
    let twice = "zeros.bin: refused 29: Is each of its places 0 to 679, and none twice?\n  byte 2: 00 00\n";
    folder.write("zeros.bin", [0; 1360]);
    folder.complains(&["build", "example.sheet", "--order", "zeros.bin"], 1, twice);
    // A text that is called an order is none if it is a drawing.
    folder.write("drawing.order", DRAWING);
    let order = "drawing.order:1:1: expected an order's head, found `track`\n  1 | track\n    | ^^^^^\n\
                 help: begin with `order`, then write places in the order in which they are asked, one a line\n";
    folder.complains(&["build", "example.sheet", "--order", "drawing.order"], 1, order);
}

/// The order of the drawing.
const ORDER: &str = "order\nargument 2\nargument 1\nargument 2, part 3\n";

#[test]
fn the_order_of_a_drawing_is_written() {
    let folder = folder("track-order");
    assert_eq!(folder.says(&["order", "drawing.track"]), ORDER);
    assert_eq!(folder.says(&["order", "drawing.track", "-o", "track.order"]), "");
    assert_eq!(folder.read("track.order"), ORDER.as_bytes());
    assert_eq!(folder.says(&["order", "drawing.track", "-o", "order.bin"]), "");
    let places = (85..128).chain(149..170).chain(0..85).chain(128..149).chain(170..680);
    assert_eq!(folder.read("order.bin"), list(&places.collect::<Vec<u16>>()));
    assert_eq!(Ok(folder.read("order.bin")), voltunnis::track_order(&list(&positions())));
    folder.write("positions.bin", list(&positions()));
    assert_eq!(folder.says(&["order", "positions.bin"]), ORDER);
    assert_eq!(folder.run_with(&["order", "--bytes", "-"], &list(&positions())).stdout, ORDER);
    let json = folder.says(&["order", "--json", "drawing.track"]);
    assert!(
        json.starts_with("{\n  \"kind\": \"order\",\n  \"length\": 1360,\n  \"bytes\": \"00550056"),
        "{json}"
    );
    assert!(
        json.ends_with("\"text\": \"order\\nargument 2\\nargument 1\\nargument 2, part 3\\n\"\n}\n"),
        "{json}"
    );
    // A part that stands before the whole comes after it, and before the other parts.
    folder.write("early.track", "track\nargument 1 at 900\nargument 1, part 2 at 100\nargument 2 at 500\n");
    let [one, three, four] = [1, 3, 4].map(|part| format!("argument 1, part {part}\n"));
    let early = format!("order\nargument 2\nargument 1\n{one}{three}{four}");
    assert_eq!(folder.says(&["order", "early.track"]), early);
    let short = "short.bin: byte 2: expected a wide position for each of 680 places\n";
    folder.write("short.bin", [0; 3]);
    folder.complains(&["order", "short.bin"], 1, short);
    let head = "example.sheet:2:1: expected a track's head, found `sheet`\n  2 | sheet 2\n    | ^^^^^\n\
                help: begin with `track`, then write places with their positions, one a line, as `argument 2 at 120`\n";
    folder.complains(&["order", "example.sheet"], 1, head);
}

#[test]
fn a_drawing_stands_for_its_order() {
    let folder = folder("track-stands");
    folder.says(&["order", "drawing.track", "-o", "track.order"]);
    for words in [
        &["build", "example.sheet"][..],
        &["draw", "example.sheet"],
        &["try", "example.sheet", "(?, one)", "(?, ?)"],
        &["explain", "example.sheet", "(?, one)"],
    ] {
        let by = |order: &str| folder.says(&[words, &["--order", order]].concat());
        assert_eq!(by("drawing.track"), by("track.order"), "{words:?}");
        assert_ne!(by("drawing.track"), folder.says(words), "{words:?}");
    }
    let words = ["listing", "example.sheet", "--order", "drawing.track"];
    let lines = "sheet 2 2 3 6\n1 execute 1 1 0000000000000004\n";
    assert_eq!(folder.run_with(&words, b"(?, one)\n").stdout, lines);
    // In another text the first word tells, and a fault is shown where it is.
    folder.write("mounted.txt", format!("-- as mounted\n{DRAWING}"));
    assert_eq!(
        folder.says(&["build", "example.sheet", "--order", "mounted.txt"]),
        folder.says(&["build", "example.sheet", "--order", "drawing.track"])
    );
    folder.write("fault.track", "track\nargument 2\n");
    let fault = folder.run(&["build", "example.sheet", "--order", "fault.track"]);
    assert_eq!(fault.status, 1);
    assert!(fault.stderr.starts_with("fault.track:2:11: expected `at` and a position"), "{}", fault.stderr);
}

/// What `vt conform` says about the example of another maker's program that makes this mistake.
fn conform(trap: &str, seed: &str) -> String {
    let folder = Folder::new(&format!("track-{trap}"));
    let maker = Path::new(env!("CARGO_BIN_EXE_vt")).with_file_name("examples").join("maker");
    let program = format!("'{}' --wrong {trap}", maker.display());
    let ran = folder.run(&["conform", "--program", &program, "--seed", seed]);
    assert_eq!((ran.status, ran.stderr.as_str()), (1, ""), "{}", ran.stdout);
    ran.stdout
}

#[test]
fn a_program_that_puts_places_down_otherwise_is_found() {
    for seed in ["1", "2"] {
        // The higher of two places at one position first: all at 0 tell.
        let said = conform("higher", seed);
        let all: String = (2..=8).map(|argument| format!("        argument {argument} at 0\n")).collect();
        let case = format!("\ntrack   track\n        argument 1 at 0\n{all}buffer  1360 bytes long\n");
        assert!(said.contains("differs: order\n") && said.contains(&case), "{said}");
        assert!(said.contains("\nThe buffers differ first at byte 0.\n"), "{said}");
        // By position alone: a place that stands behind those below it tells.
        let said = conform("drift", seed);
        let behind: Vec<&str> = said.lines().filter(|line| line.ends_with(" at 1")).collect();
        assert!(said.contains("differs: order\n") && behind.len() == 1, "{said}");
        assert!(!said.contains(" at 2\n") && said.contains("\nThe buffers differ first at byte "), "{said}");
    }
}
