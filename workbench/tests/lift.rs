//! `vt lift`: graphs from before gauges, whose number cases have 7 bytes, in today's form.

mod common;

use common::Folder;
use voltunnis_generate::bytes::from_hex;
use voltunnis_generate::crowded::crowded;
use voltunnis_generate::damage::damaged;
use voltunnis_generate::known;
use voltunnis_generate::random::Random;
use voltunnis_generate::sheets::sheet;
use voltunnis_tests::lift::lower;
use voltunnis_workbench::lift::{lift, NotLifted};
use voltunnis_workbench::notation::{Case, Graph, Kind};

/// The tutorial's coins, and two gauges at one place.
const COINS: &str = include_str!("../examples/coins.sheet");
const THICKNESS: &str = include_str!("../examples/thickness.sheet");

/// Why a graph that is accepted as it is is not lifted.
const ACCEPTED: &str =
    "it is accepted as it is, its number cases read with gauges; if it is from before gauges, build it again";

#[test]
fn a_stored_graph_is_the_one_that_is_built_today() {
    let mut random = Random::new(0x6c69_6674);
    let (mut lifted, mut same) = (0, 0);
    while lifted < 1_000 {
        let tree = if random.percent(20) { crowded(&mut random) } else { sheet(&mut random) };
        let sheet = tree.bytes();
        let Ok(graph) = voltunnis::graph(&sheet) else { continue };
        let Some(older) = lower(&graph) else { continue };
        *(if older == graph { &mut same } else { &mut lifted }) += 1;
        assert!(lift(&sheet, &older) == Ok(graph), "{tree:?}");
    }
    assert!(same > 50, "{same} graphs without number cases");
    for sheet in [known::nodes_1024(), known::nested_1(64), known::nested_8(32), known::coins(28)] {
        let graph = voltunnis::graph(&sheet).expect("a graph");
        let older = lower(&graph).expect("a graph of gauge 0");
        assert!(lift(&sheet, &older) == Ok(graph));
    }
}

#[test]
fn what_has_gauges_is_not_lifted() {
    let mut random = Random::new(0x6761_7567);
    let mut refused = 0;
    for _ in 0..2_000 {
        let sheet = sheet(&mut random).bytes();
        let Ok(graph) = voltunnis::graph(&sheet) else { continue };
        let cases =
            Graph::read(&graph).expect("a graph").nodes.into_iter().flat_map(|node| match node.kind {
                Kind::Switch { cases, .. } => cases,
                _ => Vec::new(),
            });
        match cases.filter(|(case, _)| matches!(case, Case::Numbers(..))).count() {
            0 => assert_eq!(lift(&sheet, &graph), Ok(graph)),
            _ => {
                assert_eq!(lift(&sheet, &graph), Err(NotLifted::HasGauges));
                refused += 1;
            }
        }
    }
    assert!(refused > 500, "{refused} graphs with gauges");
}

/// A sheet and a graph of it from before gauges, which is accepted as it is but is another graph: the case's node takes in
/// the kind of the execute after it, which leaves 40.
fn taken_for_another() -> (Vec<u8>, Vec<u8>) {
    let sheet = format!("10 01 40 22 00 00 00 09 {}", "20".repeat(63));
    let switch = "43 00 00 00 01 00 01 00 01 46 00 00 00 09 00 00";
    let graph = format!("12 01 40 00 43 {switch} 42 40 {}", "41".repeat(65));
    (from_hex(&sheet), from_hex(&graph))
}

#[test]
fn a_graph_that_is_taken_for_another_is_not_lifted_but_built_again() {
    let (sheet, older) = taken_for_another();
    assert!(voltunnis::check_graph(&sheet, &older).is_ok());
    assert_eq!(lift(&sheet, &older), Err(NotLifted::HasGauges));
    let folder = Folder::new("lift-another");
    folder.write("sheet.bin", sheet);
    folder.write("older.bin", older);
    let said = format!("older.bin: not lifted: {ACCEPTED}\n");
    folder.complains(&["lift", "--sheet", "sheet.bin", "older.bin"], 1, &said);
}

/// What is lifted is accepted, whatever the bytes were; most that are damaged are not lifted. What has gauges is accepted as
/// it is.
#[test]
fn damaged_bytes_are_refused_or_lifted_to_what_is_accepted() {
    let mut random = Random::new(0x6461_6d61);
    let mut ended = [0; 4];
    for _ in 0..20_000 {
        let sheet = known::coins(2 + random.below(4) as u16);
        let graph = voltunnis::graph(&sheet).expect("a graph");
        let older = lower(&graph).expect("a graph of gauge 0");
        let whole = if random.percent(20) { graph } else { older };
        let bytes = damaged(&mut random, &whole);
        ended[match lift(&sheet, &bytes) {
            Ok(lifted) => {
                assert!(voltunnis::check_graph(&sheet, &lifted).is_ok());
                0
            }
            Err(NotLifted::Unread(_)) => 1,
            Err(NotLifted::Refused(..)) => 2,
            Err(NotLifted::HasGauges) => {
                assert!(voltunnis::check_graph(&sheet, &bytes).is_ok());
                3
            }
        }] += 1;
    }
    assert!(ended[1] > 5_000 && ended[2] > 1_000 && ended[0] > 100 && ended[3] > 50, "{ended:?}");
}

/// A folder with a stored graph of the coins.
fn stored(name: &str) -> (Folder, Vec<u8>) {
    let folder = Folder::new(name);
    folder.write("coins.sheet", COINS);
    folder.says(&["build", "coins.sheet", "-o", "built.bin"]);
    let built = folder.read("built.bin");
    folder.write("stored.bin", lower(&built).expect("a graph of gauge 0"));
    (folder, built)
}

#[test]
fn a_stored_graph_is_lifted_and_walked() {
    let (folder, built) = stored("lift");
    assert_eq!(folder.says(&["lift", "--sheet", "coins.sheet", "stored.bin", "-o", "coins.bin"]), "");
    assert_eq!(folder.read("coins.bin"), built);
    let shown = folder.says(&["lift", "--sheet", "coins.sheet", "stored.bin"]);
    assert_eq!(shown, folder.says(&["build", "coins.sheet"]));
    let json = folder.says(&["lift", "--json", "--sheet", "coins.sheet", "stored.bin", "-o", "coins.bin"]);
    assert!(json.contains("\"kind\": \"graph\",\n  \"nodes\": 24,\n  \"file\": \"coins.bin\""), "{json}");
    let said = folder.says(&["try", "coins.sheet", "--graph", "coins.bin", "(copper, 162, 15)"]);
    assert!(said.starts_with("(copper, 162, 15)  commit 1\n"), "{said}");
}

#[test]
fn a_stored_graph_that_is_not_lifted_is_refused_with_help() {
    let (folder, _) = stored("lift-help");
    let ran = folder.run(&["check", "--sheet", "coins.sheet", "stored.bin"]);
    let help =
        "\nhelp: it is from before gauges; `vt lift` puts a gauge of 0 into each of its number cases\n";
    assert_eq!((ran.status, ran.stdout.as_str()), (1, ""));
    assert!(
        ran.stderr.starts_with("stored.bin: refused 22: ") && ran.stderr.ends_with(help),
        "{}",
        ran.stderr
    );
    let ran = folder.run(&["try", "coins.sheet", "--graph", "stored.bin", "(copper, 162, 15)"]);
    assert!(ran.status == 1 && ran.stderr.ends_with(help), "{}", ran.stderr);
    // One that would not be accepted lifted gets no such help.
    let mut other = folder.read("stored.bin");
    other.push(0x40);
    folder.write("other.bin", other);
    let ran = folder.run(&["check", "--sheet", "coins.sheet", "other.bin"]);
    assert!(ran.status == 1 && !ran.stderr.contains("help"), "{}", ran.stderr);
}

#[test]
fn what_cannot_be_lifted_is_told() {
    let (folder, _) = stored("lift-faults");
    folder.write("thickness.sheet", THICKNESS);
    let lift = ["lift", "--sheet", "coins.sheet"];
    let complains = |words: &[&str], status: i32, said: &str| {
        folder.complains(&[&lift[..], words].concat(), status, said);
    };
    complains(&["built.bin"], 1, &format!("built.bin: not lifted: {ACCEPTED}\n"));
    folder.write("short.bin", &folder.read("stored.bin")[..200]);
    let unread = "byte 64: expected a whole record of kinds 40 to 43 or 47, with its cases\n";
    complains(&["short.bin"], 1, &format!("short.bin: not from before gauges: {unread}"));
    folder.write("long.bin", [folder.read("stored.bin"), vec![0x40]].concat());
    let length = folder.read("stored.bin").len();
    let more = format!("long.bin: not from before gauges: byte {length}: expected no further bytes\n");
    complains(&["long.bin"], 1, &more);
    // A graph that can be read, but not of this sheet.
    folder.write("other.bin", from_hex("120101000343000000010002000146000500090001420140"));
    let ran = folder.run(&["lift", "--sheet", "coins.sheet", "other.bin"]);
    let said =
        "other.bin, lifted: refused 21: Does the graph begin with a whole 12 record with the sheet's arity";
    assert!(ran.status == 1 && ran.stderr.starts_with(said), "{}", ran.stderr);
    folder.write("coins.graph", folder.says(&["text", "built.bin"]));
    let text = "vt: coins.graph: expected the bytes of a graph: in a text a range that names no gauge is of gauge 0 \
                already; `vt bytes` writes it\nSee `vt lift --help`.\n";
    complains(&["coins.graph"], 2, text);
    let usage = "vt: expected the graph's sheet, --sheet SHEET\nSee `vt lift --help`.\n";
    folder.complains(&["lift", "stored.bin"], 2, usage);
    complains(&[], 2, "vt: expected one graph\nSee `vt lift --help`.\n");
}
