//! Pictures: what they show, that Graphviz takes them without a word, and what happens without Graphviz.

mod common;

use common::{Folder, EXAMPLE};
use std::io::Write;
use std::process::{Command, Stdio};
use voltunnis_generate::known;

const GRAPHVIZ: &str = "Graphviz is not installed: apt-get install graphviz";

/// Graphviz draws this text and has nothing to say about it; gives the picture.
#[track_caller]
fn drawn(dot: &[u8]) -> String {
    let mut child = Command::new("dot")
        .arg("-Tsvg")
        .stdin(Stdio::piped())
        .stdout(Stdio::piped())
        .stderr(Stdio::piped())
        .spawn()
        .expect(GRAPHVIZ);
    let mut input = child.stdin.take().expect("its input");
    let text = dot.to_vec();
    let feed = std::thread::spawn(move || input.write_all(&text));
    let output = child.wait_with_output().expect("dot ends");
    feed.join().expect("the thread ends").expect("dot reads all");
    assert_eq!((output.status.code(), String::from_utf8_lossy(&output.stderr).as_ref()), (Some(0), ""));
    String::from_utf8(output.stdout).expect("text")
}

/// The texts of a picture.
fn texts(svg: &str) -> Vec<String> {
    let lines = svg.lines().filter(|line| line.starts_with("<text"));
    let text = |line: &str| Some(line.split_once('>')?.1.split_once("</text>")?.0.replace("&#45;", "-"));
    lines.filter_map(text).map(|text| text.replace('\u{a0}', " ").trim().to_string()).collect()
}

#[test]
fn the_example_is_drawn() {
    let folder = Folder::new("picture");
    assert_eq!(folder.says(&["draw", "example.sheet", "-o", "example.svg"]), "");
    let svg = String::from_utf8(folder.read("example.svg")).expect("text");
    let texts = texts(&svg);
    let shown = |text: &str| texts.iter().filter(|known| *known == text).count();
    for (text, times) in
        [("argument 1", 1), ("argument 2", 1), ("argument 1 = argument 2", 1), ("execute 1", 1)]
    {
        assert_eq!(shown(text), times, "{text}");
    }
    for (text, times) in [("neither", 2), ("unknown", 2), ("one", 1), ("two", 1), ("no", 1), ("other", 1)] {
        assert_eq!(shown(text), times, "{text}");
    }
    assert_eq!((shown("1: (X, X)"), shown("2: (one, two)"), shown("waits for readings")), (1, 1, 1));
    assert_eq!(svg.matches("<g id=\"edge").count(), 8);
    // The picture in the repository shows the same.
    let kept = include_str!("../../docs/pictures/example.svg");
    assert_eq!(self::texts(kept), texts, "draw docs/pictures/example.svg again");
}

#[test]
fn pictures_have_the_format_that_their_name_says() {
    let folder = Folder::new("formats");
    folder.says(&["draw", "example.sheet", "-o", "example.png"]);
    assert!(folder.read("example.png").starts_with(b"\x89PNG"));
    folder.says(&["draw", "example.sheet", "-o", "example.pdf"]);
    assert!(folder.read("example.pdf").starts_with(b"%PDF"));
    folder.says(&["draw", "example.sheet", "-o", "example.dot"]);
    assert_eq!(folder.read("example.dot"), folder.says(&["draw", "example.sheet"]).into_bytes());
    let json = "{\n  \"file\": \"example.svg\",\n  \"nodes\": 6,\n  \"edges\": 8\n}\n";
    assert_eq!(folder.says(&["draw", "--json", "example.sheet", "-o", "example.svg"]), json);
}

#[test]
fn the_way_is_marked() {
    let folder = Folder::new("marked");
    assert_eq!(folder.says(&["explain", "example.sheet", "(?, one)", "-o", "walk.dot"]), "");
    let dot = String::from_utf8(folder.read("walk.dot")).expect("text");
    let marked: Vec<&str> =
        dot.lines().filter(|line| line.contains("#d9480f") && line.contains("->")).collect();
    assert_eq!(marked.len(), 2, "{marked:?}");
    assert!(marked[0].starts_with("  n0 -> n1 [label=\" 1: unknown \"") && marked[1].contains("2: neither"));
    assert!(texts(&drawn(dot.as_bytes())).contains(&"(?, one): execute 1".to_string()));
}

#[test]
fn names_of_all_sorts_are_drawn() {
    let folder = Folder::new("names");
    let sheet =
        EXAMPLE.replace("one", "münze_1").replace("1: (X, X)", "1: (X, -- a \"quoted\" <comment> & more\nX)");
    folder.write("odd.sheet", sheet);
    let svg = drawn(folder.says(&["draw", "odd.sheet"]).as_bytes());
    assert!(texts(&svg).contains(&"münze_1".to_string()));
}

#[test]
fn large_graphs_are_drawn() {
    let folder = Folder::new("large");
    // 80 nodes, whose switches have 1,932 cases of numbers.
    folder.write("coins.bin", known::coins(8));
    drawn(folder.says(&["draw", "coins.bin"]).as_bytes());
    // 999 nodes and 4,824,790 bytes: the text for Graphviz is made, and is less than a fourth as long.
    folder.write("longest.bin", known::longest_32());
    let dot = folder.says(&["draw", "longest.bin"]);
    assert!(dot.matches("\n  n").count() > 999 && dot.contains("… "), "{} bytes", dot.len());
    assert!(dot.contains(" spans ") && dot.len() < 4_824_790 / 4, "{} bytes", dot.len());
    let said = folder.says(&["explain", "longest.bin", "(?, ?, ?, ?, ?, 8..12?, 9, 7)"]);
    assert!(said.contains("suspend after"), "{said}");
}

/// Number cases are one for each pair of runs: those to one node are one edge, whose label says them shortly.
#[test]
fn overlapping_cases_are_summed_up() {
    let folder = Folder::new("runs");
    folder.write("three.sheet", "sheet 1\n1: (10..19)\n2: (15..29)\n3: (40..49)\n");
    let dot = folder.says(&["draw", "three.sheet"]);
    let edges: Vec<&str> = dot.lines().filter(|line| line.starts_with("  n0 -> ")).collect();
    let label =
        |text: &str| edges.iter().filter(|edge| edge.contains(&format!("label=\" {text} \""))).count();
    // Runs 0..9, 10..14, 15..19, 20..29, 30..39, 40..49, 50..65535: none, 1, 1 2, 2, none, 3, none.
    assert_eq!(edges.len(), 6, "{edges:#?}");
    assert_eq!(label("0..9 \\n 30..39 \\n 50..65535 \\n neither"), 1, "{edges:#?}");
    assert_eq!(label("10..14 \\n span 0..14"), 1, "{edges:#?}");
    assert_eq!(label("20..29 \\n span 20..39"), 1, "{edges:#?}");
    assert_eq!(label("40..49 \\n 3 spans"), 1, "{edges:#?}");
    assert_eq!(label("15..19 \\n 16 spans"), 1, "{edges:#?}");
    assert!(texts(&drawn(dot.as_bytes())).contains(&"span: a number between two".to_string()));
}

/// A run of ids is its two ends, a run of one id that id.
#[test]
fn runs_of_ids_stand_at_the_edges() {
    let folder = Folder::new("series-picture");
    folder.write("arcade.sheet", include_str!("../examples/arcade.sheet"));
    let dot = folder.says(&["draw", "arcade.sheet"]);
    let edges: Vec<&str> = dot.lines().filter(|line| line.starts_with("  n0 -> ")).collect();
    let label =
        |text: &str| edges.iter().filter(|edge| edge.contains(&format!("label=\" {text} \""))).count();
    for text in ["#1000..#1499", "#1500..#1776 \\n #1778..#1999", "jubilee", "neither", "unknown"] {
        assert_eq!(label(text), 1, "{text}: {edges:#?}");
    }
    assert_eq!(edges.len(), 5, "{edges:#?}");
    assert!(texts(&drawn(dot.as_bytes())).contains(&"#1000..#1499".to_string()));
    folder.says(&["explain", "arcade.sheet", "(#1800, ?)", "-o", "walk.dot"]);
    let walk = String::from_utf8(folder.read("walk.dot")).expect("text");
    assert!(walk.contains("label=\" 1: #1778..#1999 \""), "{walk}");
}

/// Cases of a gauge stand with its name; those for several runs of it, which nothing takes, are counted.
#[test]
fn gauges_stand_at_the_edges() {
    let folder = Folder::new("gauges-picture");
    folder.write("thickness.sheet", include_str!("../examples/thickness.sheet"));
    let dot = folder.says(&["draw", "thickness.sheet"]);
    let edges: Vec<&str> = dot.lines().filter(|line| line.starts_with("  n1 -> ")).collect();
    let label =
        |text: &str| edges.iter().filter(|edge| edge.contains(&format!("label=\" {text} \""))).count();
    let others = "0..177 \\n 185..65535 \\n 0..99@roller \\n 107..65535@roller \\n neither";
    for text in [others, "178..184 \\n 3 spans", "100..106@roller \\n 3 unused", "unknown"] {
        assert_eq!(label(text), 1, "{text}: {edges:#?}");
    }
    assert_eq!(edges.len(), 4, "{edges:#?}");
    let shown = texts(&drawn(dot.as_bytes()));
    for text in ["100..106@roller", "unused: cases that no reading takes", "2: (nickel, 100..106@roller, _)"]
    {
        assert!(shown.contains(&text.to_string()), "{text}: {shown:?}");
    }
    assert!(!folder.says(&["draw", "example.sheet"]).contains("unused"));
    folder.says(&["explain", "thickness.sheet", "(nickel, 104@roller, ?)", "-o", "walk.dot"]);
    let walk = String::from_utf8(folder.read("walk.dot")).expect("text");
    assert!(walk.contains("label=\" 2: 100..106@roller \""), "{walk}");
}

#[test]
fn the_way_of_a_span_is_marked() {
    let folder = Folder::new("span-marked");
    folder.write("two.sheet", "sheet 1\n1: (10..19)\n2: (20..29)\n");
    folder.says(&["explain", "two.sheet", "(12..25?)", "-o", "walk.dot"]);
    let dot = String::from_utf8(folder.read("walk.dot")).expect("text");
    let marked: Vec<&str> = dot.lines().filter(|line| line.contains("label=\" 1: 10..29 \"")).collect();
    assert!(matches!(marked[..], [one] if one.contains("#d9480f")), "{dot}");
    assert!(texts(&drawn(dot.as_bytes())).contains(&"(12..25?): suspend".to_string()));
}

/// What will never come goes by neither, and at a pair by no, also beside an unknown.
#[test]
fn the_way_of_what_will_never_come_is_marked() {
    let folder = Folder::new("never-marked");
    folder.write("pair.sheet", "sheet 2\n1: (2..3, _)\n2: (X, X)\n");
    for (piece, way, title) in [
        ("(!, ?)", &["1: neither"][..], "(!, ?): fail"),
        ("(?, !)", &["1: unknown", "2: no"], "(?, !): execute 1"),
    ] {
        folder.says(&["explain", "pair.sheet", piece, "-o", "walk.dot"]);
        let dot = String::from_utf8(folder.read("walk.dot")).expect("text");
        let marked = dot.lines().filter(|line| line.contains("#d9480f") && line.contains("->"));
        let labels: Vec<&str> = marked.filter_map(|line| line.split('"').nth(1)).map(str::trim).collect();
        assert_eq!(labels, way, "{piece}: {dot}");
        assert!(texts(&drawn(dot.as_bytes())).contains(&title.to_string()), "{dot}");
    }
}

#[test]
fn without_graphviz_the_dot_is_written() {
    let folder = Folder::new("missing");
    let ran = Command::new(env!("CARGO_BIN_EXE_vt"))
        .args(["draw", "example.sheet", "-o", "example.svg"])
        .current_dir(&folder.0)
        .env("PATH", &folder.0)
        .output()
        .expect("vt runs");
    let said = "vt: Graphviz is not installed, so example.dot was written instead of example.svg\n\
                Install it (Debian: apt-get install graphviz) and run: dot -Tsvg example.dot -o example.svg\n";
    assert_eq!((ran.status.code(), String::from_utf8_lossy(&ran.stderr).as_ref()), (Some(2), said));
    assert!(folder.read("example.dot").starts_with(b"digraph decisions {"));
    let message =
        "vt: example.gif: expected a file that ends in .svg, .png, .pdf or .dot\nSee `vt draw --help`.\n";
    folder.complains(&["draw", "example.sheet", "-o", "example.gif"], 2, message);
}
