//! The documents tell the truth: every command of the tutorial and of the README's section "At the
//! workbench" is run and says what stands there, and every example of the notation is accepted.

mod common;

use common::Folder;
use std::fs;
use std::path::Path;
use std::process::Command;
use voltunnis_workbench::notation::{parse_graph, parse_order, parse_pieces, parse_sheet, parse_track};

/// A block of a document: what stands after its fence, and its text.
fn blocks(document: &str) -> Vec<(&str, &str)> {
    let mut blocks = Vec::new();
    let mut rest = document;
    while let Some((_, after)) = rest.split_once("\n```") {
        let (info, body) = after.split_once('\n').expect("a block");
        let (text, later) = body.split_once("```\n").expect("a block's end");
        blocks.push((info, text));
        rest = later;
    }
    blocks
}

/// What a shell says when it runs a command with `vt` at hand.
fn shell(folder: &Folder, line: &str) -> String {
    let program = Path::new(env!("CARGO_BIN_EXE_vt")).parent().expect("a folder");
    let path = format!("{}:{}", program.display(), std::env::var("PATH").unwrap_or_default());
    let line = format!("{{ {line}\n}} 2>&1");
    let output = Command::new("sh").args(["-c", &line]).current_dir(&folder.0).env("PATH", path).output();
    String::from_utf8(output.expect("a shell").stdout).expect("text")
}

/// Runs the commands of a document's blocks and compares what they say; gives how many there were.
#[track_caller]
fn follow(folder: &Folder, document: &str) -> usize {
    let mut count = 0;
    for (info, text) in blocks(document) {
        if let Some(name) = info.strip_prefix("text ") {
            folder.write(name, text);
        }
        if info != "console" {
            continue;
        }
        for part in format!("\n{text}").split("\n$ ").skip(1) {
            let (line, said) = part.split_once('\n').unwrap_or((part, ""));
            let said =
                if said.is_empty() || said.ends_with('\n') { said.into() } else { format!("{said}\n") };
            assert_eq!(shell(folder, line), said, "$ {line}");
            count += 1;
        }
    }
    count
}

#[test]
fn the_tutorial_can_be_followed() {
    let folder = Folder::new("tutorial");
    let count = follow(&folder, include_str!("../../docs/TUTORIAL.md"));
    assert!(count >= 15, "{count} commands");
    assert_eq!(folder.read("coins.sheet"), include_bytes!("../examples/coins.sheet"));
    assert_eq!(folder.read("arcade.sheet"), include_bytes!("../examples/arcade.sheet"));
    assert_eq!(folder.read("thickness.sheet"), include_bytes!("../examples/thickness.sheet"));
    assert!(folder.read("coins.svg").starts_with(b"<?xml") && folder.read("walk.svg").starts_with(b"<?xml"));
}

#[test]
fn the_readmes_section_can_be_followed() {
    let folder = Folder::new("readme");
    let readme = include_str!("../../README.md");
    let (_, section) = readme.split_once("\n## At the workbench\n").expect("the section");
    let section = section.split("\n## ").next().expect("its text");
    fs::create_dir_all(folder.0.join("workbench/examples")).expect("a folder");
    folder.write("workbench/examples/example.sheet", common::EXAMPLE);
    let count = follow(&folder, section);
    assert!(count >= 4, "{count} commands");
    assert!(section.contains("docs/pictures/example.svg"));
}

/// The text is the graph that is built for this sheet.
#[track_caller]
fn is_graph_of(text: &str, sheet: &str) {
    let graph = parse_graph(text, &Default::default()).expect("a graph").bytes();
    assert_eq!(Ok(graph), voltunnis::graph(&parse_sheet(sheet).expect("a sheet").sheet.bytes()));
}

#[test]
fn the_notations_examples_are_accepted() {
    let mut names = Default::default();
    for (info, text) in blocks(include_str!("../../docs/NOTATION.md")) {
        match info {
            "text example.sheet" => {
                let written = parse_sheet(text).expect("a sheet");
                assert!(voltunnis::check_sheet(&written.sheet.bytes()).is_ok());
                names = written.names;
            }
            "text tray.pieces" => {
                let (pieces, _) = parse_pieces(text, &names).expect("pieces");
                assert!(pieces.iter().all(|piece| voltunnis::check_piece(&piece.bytes()).is_ok()));
            }
            "text example.graph" => is_graph_of(text, "sheet 2\n1: (X, X)\n2: (#1, #2)\n"),
            "text series.graph" => is_graph_of(text, "sheet 1\n1: (#10..#19)\n2: (#15..#29)\n"),
            "text gauges.graph" => is_graph_of(text, "sheet 1\n1: (_)\n2: (2..3@1)\n"),
            "text runs.graph" => is_graph_of(text, "sheet 1\n1: (10..19)\n2: (20..29)\n"),
            "text track.order" => {
                let order = parse_order(text).expect("an order");
                assert_eq!(voltunnis::check_order(&order.bytes()), Ok(()));
                // Argument 3 at 170, its part 2 at 192 with 20 places below it, argument 1 from 0 to 84.
                let places = order.places();
                assert_eq!((places[0], &places[85..88], places[107]), (85, &[170, 192, 193][..], 171));
                assert_eq!(places[595..], (0..85).collect::<Vec<u16>>());
            }
            "text drawing.track" => {
                let positions = parse_track(text).expect("a drawing").positions();
                // Argument 2 from place 85 on, argument 3 from 170 on, its part 2 from 192 to 212.
                assert_eq!((positions[85], positions[169], positions[170]), (120, 120, 340));
                assert_eq!(
                    (positions[191], positions[192], positions[212], positions[213]),
                    (340, 560, 560, 340)
                );
                assert_eq!((positions[0], positions[255], positions[679]), (900, 65535, 65535));
            }
            other => panic!("an unknown block {other}"),
        }
    }
}
