//! Many pieces for one check: every field of the results, where a run stops and goes on, the order of questions,
//! and each result against the walk of its piece alone.

use voltunnis_tests::both::{lent, walk, walk_all};
use voltunnis_tests::bytes::{from_hex, to_hex};
use voltunnis_tests::count::Count;
use voltunnis_tests::generate::asked::Asked;
use voltunnis_tests::generate::damage::{damaged, noise};
use voltunnis_tests::generate::graphs::graph;
use voltunnis_tests::generate::hostile::hostile_piece;
use voltunnis_tests::generate::known;
use voltunnis_tests::generate::nodes::GraphNodes;
use voltunnis_tests::generate::pieces::piece;
use voltunnis_tests::generate::random::Random;
use voltunnis_tests::generate::sheets::sheet;
use voltunnis_tests::generate::stock::Stock;
use voltunnis_tests::generate::trees::{piece_bytes, SheetTree};
use voltunnis_tests::reference::{own_graph, piece::Piece};
use voltunnis_tests::results::{in_hex, Answer, Refusal, Run};

/// A switch at which every edge leads back, for the sheet `f(1)`.
const ROUND: &str = "12 01 01 00 01 43 00 00 00 01 00 00 00 00 44 00 01 00 01 00 00";
const ROUND_SHEET: &str = "10 01 01 21 00 01";

/// The results of an accepted run as text; the bytes after them stay.
#[track_caller]
fn said(sheet: &[u8], graph: &[u8], pieces: &[u8], len: usize) -> (Run, Vec<String>) {
    let (run, buffer) = walk_all(sheet, graph, pieces, len);
    let run = run.expect("an accepted sheet and graph");
    let end = 16 * run.results as usize;
    assert!(buffer[end..] == lent(len)[end..], "a byte after the results");
    (run, buffer[..end].chunks(16).map(to_hex).collect())
}

/// The run is refused, and no byte changes.
#[track_caller]
fn refused(sheet: &[u8], graph: &[u8], pieces: &[u8], refusal: Refusal) {
    for len in [0, 16, 100] {
        assert!(walk_all(sheet, graph, pieces, len) == (Err(refusal), lent(len)), "refused {refusal}");
    }
}

/// Document 01's example: its sheet, its graph and its four pieces.
fn example() -> (Vec<u8>, Vec<u8>, Vec<u8>) {
    let sheet = known::example();
    let graph = own_graph(&sheet).expect("a graph");
    (sheet, graph, known::example_pieces().concat())
}

const EXAMPLE: [&str; 4] = [
    "00010203000000000000000000000000",
    "00020102000000000000000000000004",
    "00030003000000000000000000000007",
    "00040001000000000000000000000000",
];

#[test]
fn the_examples_pieces_have_their_results() {
    let (sheet, graph, pieces) = example();
    let (run, results) = said(&sheet, &graph, &pieces, 200);
    assert_eq!((run, &results[..]), (Run { results: 4, bytes: 26 }, &EXAMPLE.map(String::from)[..]));
}

#[test]
fn the_example_goes_on_two_at_a_time() {
    let (sheet, graph, pieces) = example();
    let (first, one) = said(&sheet, &graph, &pieces, 32);
    assert_eq!(first, Run { results: 2, bytes: 14 });
    let (second, two) = said(&sheet, &graph, &pieces[14..], 32);
    assert_eq!(second, Run { results: 2, bytes: 12 });
    assert_eq!([one, two].concat(), EXAMPLE);
    assert_eq!(said(&sheet, &graph, &pieces[26..], 32), (Run { results: 0, bytes: 0 }, vec![]));
}

#[test]
fn as_many_results_are_written_as_there_is_room_for() {
    let (sheet, graph, pieces) = example();
    let taken = [0, 8, 14, 18, 26];
    for len in 0..=80 {
        let (run, results) = said(&sheet, &graph, &pieces, len);
        let count = (len / 16).min(4);
        assert_eq!(run, Run { results: count as u32, bytes: taken[count] }, "{len} bytes");
        assert_eq!(results, EXAMPLE[..count]);
    }
}

#[test]
fn a_wait_list_has_its_highest_byte_first() {
    // One rule of 64 tests, of which the last is not known.
    let four = |kind: &str, leaf: &str| format!("{kind} 00 01 04 {}", format!("{leaf} ").repeat(4));
    let full = |kind: &str, leaf: &str| four(kind, &four(kind, leaf)).repeat(3);
    let sheet = from_hex(&format!("10 04 01 {} 21 00 01", full("23", "21 00 01")));
    let piece = from_hex(&format!("11 04 {} 30", full("33", "31 00 01")));
    let graph = own_graph(&sheet).expect("a graph");
    let (run, results) = said(&sheet, &graph, &piece, 16);
    assert_eq!(run, Run { results: 1, bytes: piece.len() as u32 });
    assert_eq!(results, ["00020100000000008000000000000000"]);
}

#[test]
fn the_sheet_is_asked_before_the_graph_and_the_graph_before_the_pieces() {
    let (sheet, graph, pieces) = example();
    refused(&[], &[], &[], 1);
    refused(&from_hex("10 01 01 21"), &[], &[0xff], 4);
    refused(&sheet, &[], &pieces, 21);
    refused(&sheet, &graph[..50], &[0xff], 22);
    refused(&sheet, &from_hex("12 02 02 00 01 42 03"), &from_hex("11 01 30"), 23);
    refused(&sheet, &[&graph[..], &[0x41]].concat(), &[], 25);
    assert_eq!(said(&sheet, &graph, &[0xff], 40).1, ["0c000000000000000000000000000000"]);
}

#[test]
fn a_piece_refused_by_20_26_or_27_is_not_the_last() {
    let (sheet, graph, pieces) = example();
    let other = [&from_hex("11 01 30")[..], &pieces, &from_hex("11 03 30 30 30")].concat();
    let (run, results) = said(&sheet, &graph, &other, 200);
    assert_eq!(run, Run { results: 6, bytes: 34 });
    assert_eq!(results[0], "14000000000000000000000000000000");
    assert_eq!(results[1..5], EXAMPLE);
    assert_eq!(results[5], results[0]);
    let round = from_hex("11 01 30 11 01 31 00 01");
    let (run, results) = said(&from_hex(ROUND_SHEET), &from_hex(ROUND), &round, 64);
    assert_eq!((run, &results[..]), (Run { results: 2, bytes: 8 }, &vec![format!("1a{:030}", 0); 2][..]));
    // f(g(1)): the graph asks for the part at once.
    let inside = from_hex("10 01 01 23 00 01 01 21 00 01");
    let part = from_hex("12 01 01 00 03 43 00 01 00 01 00 02 00 01 44 00 01 00 01 00 01 42 01 40");
    let (run, results) = said(&inside, &part, &from_hex("11 01 31 00 01 11 01 30"), 64);
    assert_eq!(run, Run { results: 2, bytes: 8 });
    assert_eq!(results, ["1b000000000000000000000000000000", "00020101000000000000000000000003"]);
}

#[test]
fn a_piece_that_cannot_be_read_gets_the_last_result() {
    let (sheet, graph, pieces) = example();
    for (unread, refusal) in [
        ("12 02", 12),
        ("11 00", 13),
        ("11 09 30", 13),
        ("11 02 30", 14),
        ("11 02 37 30", 14),
        ("11 02 34 00 01 30", 14),
        ("11 02 34 00 02 00 01 30", 32),
        ("11 02 33 00 01 01 33 00 01 01 33 00 01 01 33 00 01 01 30 30", 15),
        ("11 02 33 00 01 05 30", 16),
    ] {
        let all = [&pieces[..8], &from_hex(unread), &pieces].concat();
        let (run, results) = said(&sheet, &graph, &all, 200);
        assert_eq!(run, Run { results: 2, bytes: 8 }, "{unread}");
        assert_eq!(results, [EXAMPLE[0].to_string(), format!("{refusal:02x}{:030}", 0)], "{unread}");
        let (again, results) = said(&sheet, &graph, &all[8..], 200);
        assert_eq!((again, results.len()), (Run { results: 1, bytes: 0 }, 1), "{unread}");
        assert_eq!(said(&sheet, &graph, &all, 16).0, Run { results: 1, bytes: 8 }, "{unread}");
    }
    let half = [&pieces[..8], &[0x11]].concat();
    assert_eq!(said(&sheet, &graph, &half, 200).1[1], format!("0c{:030}", 0));
}

/// Pieces for a sheet, one after another: mostly good, some refused, some that end the run.
fn some_pieces(random: &mut Random, tree: &SheetTree) -> Vec<u8> {
    let one = |random: &mut Random| {
        let terms = piece(random, tree, Stock::FULL);
        match random.below(60) {
            0 => hostile_piece(random, &terms),
            1 => damaged(random, &piece_bytes(&terms)),
            2 => noise(random, 0x11),
            _ => piece_bytes(&terms),
        }
    };
    (0..random.below(13)).flat_map(|_| one(random)).collect()
}

/// The results of a run, each that of its piece alone; where they are refused, by which question.
fn alone(sheet: &[u8], graph: &[u8], mut pieces: &[u8]) -> Vec<Result<Answer, Refusal>> {
    let mut results = Vec::new();
    while !pieces.is_empty() {
        let length = Piece::read_first(pieces).map_or(pieces.len(), |(_, used)| used);
        let (one, rest) = pieces.split_at(length);
        results.push(walk(sheet, graph, one));
        pieces = rest;
    }
    results
}

/// The results by runs with room for so many each, going on where the last stopped; and the bytes taken.
fn in_runs(random: &mut Random, sheet: &[u8], graph: &[u8], pieces: &[u8]) -> (Vec<String>, usize) {
    let (mut all, mut at) = (Vec::new(), 0);
    loop {
        let room = random.between(1, 4);
        let (run, results) = said(sheet, graph, &pieces[at..], 16 * room + random.below(16));
        at += run.bytes as usize;
        all.extend(results);
        if (run.results as usize) < room || (run.bytes == 0 && run.results > 0) {
            return (all, at);
        }
        // A piece that cannot be read, met again, would be told twice.
        if all.last().is_some_and(|last| matches!(from_hex(last)[0], 12..=16 | 32)) {
            return (all, at);
        }
    }
}

/// Walks pieces in one run and in several; each result is that of its piece alone.
fn compare(random: &mut Random, count: &mut Count, sheet: &[u8], graph: &[u8], pieces: &[u8]) {
    let expected = alone(sheet, graph, pieces);
    let (run, buffer) = walk_all(sheet, graph, pieces, 16 * expected.len() + random.below(40));
    let run = match run {
        Ok(run) => run,
        Err(refusal) => {
            assert!(buffer == lent(buffer.len()), "a byte changed on a refusal");
            return count.met(format!("refused {refusal}"));
        }
    };
    let spelled: Vec<String> = buffer.chunks(16).take(run.results as usize).map(to_hex).collect();
    let in_turn: Vec<String> = expected.iter().map(|one| in_hex(*one)).collect();
    assert_eq!(spelled, in_turn, "sheet {} graph {} pieces {}", to_hex(sheet), to_hex(graph), to_hex(pieces));
    assert_eq!(in_runs(random, sheet, graph, pieces), (spelled, run.bytes as usize));
    for one in expected {
        count.met(
            one.map_or_else(|refusal| format!("piece {refusal}"), |answer| answer.walk.word.to_string()),
        );
    }
    count.met(if run.bytes as usize == pieces.len() { "all taken" } else { "not all taken" });
}

#[test]
fn each_result_is_that_of_its_piece_alone() {
    let mut random = Random::new(0x6d61_6e79);
    let mut count = Count::default();
    for _ in 0..6_000 {
        let tree = sheet(&mut random);
        let bytes = if random.percent(3) { damaged(&mut random, &tree.bytes()) } else { tree.bytes() };
        let own = own_graph(&bytes);
        let nodes = || own.as_deref().and_then(GraphNodes::read).map(|(graph, _)| graph.nodes);
        let graph = match (&own, random.percent(50)) {
            (Some(own), true) => own.clone(),
            _ => graph(&mut random, &Asked::of(&tree), nodes),
        };
        let pieces = some_pieces(&mut random, &tree);
        compare(&mut random, &mut count, &bytes, &graph, &pieces);
    }
    count.print();
    count.often(500, ["commit", "execute", "suspend", "fail", "all taken", "not all taken"]);
    count.often(20, [12, 13, 14, 15, 16, 20, 26, 27, 32].map(|refusal| format!("piece {refusal}")));
    count.often(5, [1, 4, 10, 11, 21, 22, 23, 24, 25].map(|refusal| format!("refused {refusal}")));
}

#[test]
fn the_crates_answers_go_over_any_number_of_pieces() {
    let (sheet, graph, pieces) = example();
    for times in [0, 1, 63, 64, 65, 200] {
        let many = [&pieces.repeat(times)[..], &from_hex("11 01 30")].concat();
        let mut answers = voltunnis::answers(&sheet, &graph, &many).expect("an accepted graph");
        let lines: Vec<Result<Answer, Refusal>> = answers.by_ref().map(|one| one.map_err(u8::from)).collect();
        assert_eq!((lines.len(), lines.last()), (4 * times + 1, Some(&Err(20))));
        assert!(lines.chunks(4).take(times).all(|four| *four == lines[..4]));
        assert_eq!(answers.rest(), [0; 0]);
        let cut = [&many[..], &from_hex("11 02 30")].concat();
        let mut answers = voltunnis::answers(&sheet, &graph, &cut).expect("an accepted graph");
        assert_eq!(answers.by_ref().count(), 4 * times + 2);
        assert_eq!((answers.rest(), answers.next()), (&cut[many.len()..], None));
    }
    assert_eq!(voltunnis::answers(&sheet, &[], &pieces).err().map(u8::from), Some(21));
}
