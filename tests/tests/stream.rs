//! The stream of calls: library and reference agree on every call, every refusal, word and kind of node is
//! met whatever the seed, and what the generators count for themselves is what the reference counts.

use std::collections::BTreeMap;
use voltunnis_tests::both;
use voltunnis_tests::fillings::holds_never;
use voltunnis_tests::generate::asked::Asked;
use voltunnis_tests::generate::calls::{Call, Fault, Name, Role};
use voltunnis_tests::generate::crowded::crowded;
use voltunnis_tests::generate::random::Random;
use voltunnis_tests::generate::sheets::sheet;
use voltunnis_tests::generate::stream::{lent, Stream};
use voltunnis_tests::generate::trees::{all, read_piece, Pattern, SheetTree, Term};
use voltunnis_tests::generate::variables::tidy_length;
use voltunnis_tests::reference::{graph_in, sheet::Sheet, tidy};

/// A sheet in words, by whether it names a gauge.
fn sort_of_sheet(sheet: &[u8]) -> &'static str {
    let (tree, _) = SheetTree::read(sheet).expect("a sheet");
    let mut patterns = tree.rules.iter().flat_map(|rule| all(rule));
    match patterns.any(|pattern| matches!(pattern, Pattern::Gauged(..))) {
        true => "sheet with 27",
        false => "sheet",
    }
}

/// A piece in words, by whether it holds a reading that will never come, or has an argument that names its gauge.
fn sort_of_piece(piece: &[u8]) -> &'static str {
    let (terms, _) = read_piece(piece).expect("a piece");
    if terms.iter().any(holds_never) {
        "piece with 35"
    } else if terms.iter().any(|term| matches!(term, Term::Gauged(..))) {
        "piece with 36"
    } else {
        "piece"
    }
}

/// What a call of both gives, in a word.
fn outcome(call: &Call) -> String {
    let of = |role| call.argument(role).unwrap_or_default();
    let (sheet, piece, graph) = (of(Role::Sheet), of(Role::Piece), of(Role::Graph));
    let (order, buffer) = (of(Role::Order), of(Role::Buffer));
    assert!(buffer == lent(buffer.len()), "a buffer as it is lent");
    let said = match call.name() {
        Name::CheckSheet => both::check_sheet(sheet).map(|_| sort_of_sheet(sheet).to_string()),
        Name::CheckPiece => both::check_piece(piece).map(|_| sort_of_piece(piece).to_string()),
        Name::CheckOrder => both::check_order(order).map(|_| "order".to_string()),
        Name::Plain => both::plain(sheet, piece).map(|plain| format!("plain {}", plain.word.name())),
        Name::CheckGraph => both::check_graph(sheet, graph).map(|_| "graph".to_string()),
        Name::Tidy => both::tidy(sheet, buffer.len()).0.map(|_| "tidy".to_string()),
        Name::Order => both::order(of(Role::Positions), buffer.len()).0.map(|_| "ordered".to_string()),
        Name::Build => both::build(sheet, buffer.len()).0.map(|_| "built".to_string()),
        Name::BuildOrdered => {
            both::build_ordered(sheet, order, buffer.len()).0.map(|_| "built in order".to_string())
        }
        Name::Rewrite => both::rewrite(sheet, graph, buffer.len()).0.map(|_| "rewritten".to_string()),
        Name::WalkAll => {
            both::walk_all(sheet, graph, of(Role::Pieces), buffer.len()).0.map(|_| "walked all".to_string())
        }
        Name::Walk => both::walk(sheet, graph, piece).map(|answer| answer.walk.word.name().to_string()),
    };
    said.unwrap_or_else(|refusal| format!("refused {refusal}"))
}

#[test]
fn every_refusal_and_every_word_is_met_whatever_the_seed() {
    for seed in 1..=4 {
        let mut counts = BTreeMap::new();
        for call in Stream::new(seed, graph_in).take(15_000) {
            *counts.entry(outcome(&call)).or_insert(0) += 1;
        }
        println!("seed {seed}: {counts:?}");
        let words = ["commit", "execute", "suspend", "fail"];
        let plain = words.map(|word| format!("plain {word}"));
        let refusals = (1..=32).chain([37, 38]).map(|number| format!("refused {number}"));
        let written = ["tidy", "ordered", "built", "built in order", "rewritten", "walked all"];
        let read = ["sheet", "sheet with 27", "piece", "piece with 35", "piece with 36", "graph", "order"];
        let accepted = read.into_iter().chain(written).map(String::from);
        for wanted in refusals.chain(words.map(String::from)).chain(plain).chain(accepted) {
            assert!(counts.contains_key(&wanted), "seed {seed}: {wanted} never");
        }
    }
}

#[test]
fn a_seed_gives_the_same_calls_and_another_seed_others() {
    let calls = |seed| Stream::new(seed, graph_in).take(500).collect::<Vec<Call>>();
    assert!(calls(7) == calls(7));
    assert!(calls(7) != calls(8));
    assert!(calls(7)[..19] == calls(8)[..19], "document 01's example comes first");
}

#[test]
fn calls_are_read_from_their_lines() {
    for call in Stream::new(5, graph_in).take(2_000) {
        assert_eq!(Call::read(&call.to_string()), Ok(call));
    }
    let fault = |line| Call::read(line).expect_err("no call").to_string();
    assert_eq!(Call::read("overlay 10"), Err(Fault::Unknown("overlay".into())));
    assert_eq!(fault("overlay 10"), "no call has the name \"overlay\"");
    assert_eq!(fault(""), "no call has the name \"\"");
    assert_eq!(fault("plain 10"), "plain takes 2 arguments, here are 1");
    assert_eq!(fault("check_sheet 1"), "an odd number of hexadecimal digits");
    assert_eq!(fault("check_sheet 1g"), "'g' is no hexadecimal digit");
}

#[test]
fn what_sheets_ask_and_how_long_they_are_tidy_is_what_the_reference_says() {
    let mut random = Random::new(0x6173_6b65);
    let mut accepted = 0;
    for _ in 0..5_000 {
        let tree = if random.percent(20) { crowded(&mut random) } else { sheet(&mut random) };
        if let Ok(read) = Sheet::read(&tree.bytes()) {
            assert_eq!(Asked::of(&tree), read.asked());
            assert_eq!(tidy_length(&tree), tidy::sheet(&tree).bytes().len());
            accepted += 1;
        }
    }
    assert!(accepted > 2_000, "{accepted} sheets");
}
