//! What a walk promises, tried on random pieces: on a built graph, in any reading order, its answer is the plain
//! answer, it is never refused, a piece filled in further keeps what was answered, narrower spans and unknowns that
//! become 35 among it, and a suspended piece stays suspended while its listed places keep the unknown or span that they
//! held and its listed pairs are not known. On another maker's graph the last need not be so.

use voltunnis_tests::both::{check_graph, walk};
use voltunnis_tests::bytes::{from_hex, to_hex};
use voltunnis_tests::generate::orders::{order, table};
use voltunnis_tests::generate::pieces::{further, piece};
use voltunnis_tests::generate::random::Random;
use voltunnis_tests::generate::sheets::sheet;
use voltunnis_tests::generate::stock::Stock;
use voltunnis_tests::generate::trees::{piece_bytes, SheetTree, Term};
use voltunnis_tests::reference::{
    self,
    keys::members,
    piece::{Found, Piece},
    records::TermRecord,
    sheet::Sheet,
    truth::{equal, Truth},
};
use voltunnis_tests::results::{Plain, Refusal, Word};

/// An accepted sheet with its graph.
struct Made {
    tree: SheetTree,
    bytes: Vec<u8>,
    sheet: Sheet,
}

fn made(random: &mut Random) -> Option<Made> {
    let tree = sheet(random);
    let bytes = tree.bytes();
    let sheet = Sheet::read(&bytes).ok()?;
    Some(Made { tree, bytes, sheet })
}

impl Made {
    /// Its graph, with or without a reading order.
    fn built(&self, random: &mut Random) -> Option<Vec<u8>> {
        let order = random.percent(50).then(|| table(&order(random)));
        reference::graph_in(&self.bytes, order.as_deref())
    }

    /// A piece of the sheet's arity that is accepted.
    fn piece(&self, random: &mut Random) -> Option<Vec<Term>> {
        let piece = piece(random, &self.tree, Stock::FULL);
        let fits = piece.len() == usize::from(self.sheet.arity);
        (fits && Piece::read(&piece_bytes(&piece)).is_ok()).then_some(piece)
    }

    /// Whether test t is kept in a piece filled in further: a place holds the unknown or span that it held, a pair is
    /// still not known.
    fn keeps(&self, test: usize, before: &Piece, after: &Piece) -> bool {
        let tests = &self.sheet.tests;
        match tests.places.get(test) {
            Some(place) => held(before, *place) == held(after, *place),
            None => {
                let (p, q) = tests.pairs[test - tests.places.len()];
                equal(after, p, q) == Truth::NotKnown
            }
        }
    }
}

/// What a piece holds at a place: unknown below an unknown, and record 35 below record 35; none where the place lacks.
fn held(piece: &Piece, place: u16) -> Option<TermRecord> {
    match piece.find(place) {
        Found::Term(cells) => Some(cells[0].term),
        Found::Lacking => None,
    }
}

/// Of which sort a piece is: 2 with a reading that will never come, 1 with a span of several numbers, else 0.
fn sort(terms: &[Term]) -> usize {
    let of = |term: &Term| match term {
        Term::Never => 2,
        Term::Span(low, high) => usize::from(low < high),
        Term::Compound(_, arguments) => sort(arguments),
        _ => 0,
    };
    terms.iter().map(of).max().unwrap_or(0)
}

#[test]
fn a_walk_on_a_built_graph_gives_the_plain_answer() {
    let mut random = Random::new(0x706c_6169);
    let mut words = [[0; 5]; 3];
    for _ in 0..6_000 {
        let Some(made) = made(&mut random) else { continue };
        let Some(graph) = made.built(&mut random) else { continue };
        for _ in 0..4 {
            let Some(terms) = made.piece(&mut random) else { continue };
            let piece = piece_bytes(&terms);
            let walked = walk(&made.bytes, &graph, &piece).expect("an answer").walk;
            let plain = reference::plain(&made.bytes, &piece);
            assert_eq!(plain, Ok(Plain { word: walked.word, rule: walked.rule }));
            words[sort(&terms)][walked.word as usize] += 1;
        }
    }
    println!("by sort and word {words:?}");
    assert!(words.iter().all(|words| words[1..].iter().all(|count| *count >= 150)), "{words:?}");
}

/// Whether an answer keeps what the one for the same piece with less filled in promised.
fn keeps(before: Plain, after: Plain) -> bool {
    match before.word {
        Word::Commit | Word::Fail => after == before,
        Word::Execute => {
            after.word == Word::Fail || (after.word != Word::Suspend && after.rule == before.rule)
        }
        Word::Suspend => true,
    }
}

#[test]
fn a_piece_filled_in_further_keeps_the_promise() {
    let mut random = Random::new(0x6b65_6570);
    let (mut changed, mut given_up) = ([[0; 5]; 3], [0; 5]);
    for _ in 0..12_000 {
        let Some(made) = made(&mut random) else { continue };
        let Some(graph) = made.built(&mut random) else { continue };
        let Some(piece) = made.piece(&mut random) else { continue };
        let answer = |piece: &[Term]| {
            let walked = walk(&made.bytes, &graph, &piece_bytes(piece)).expect("an answer").walk;
            Plain { word: walked.word, rule: walked.rule }
        };
        let before = answer(&piece);
        for _ in 0..4 {
            let chance = random.pick(&[20, 50, 100]);
            let further = further(&mut random, &piece, 1, chance);
            let after = answer(&further);
            assert!(keeps(before, after), "{before:?}, then {after:?}");
            changed[sort(&piece)][before.word as usize] += usize::from(further != piece);
            given_up[before.word as usize] += usize::from(sort(&piece) < 2 && sort(&further) == 2);
        }
    }
    println!(
        "filled in further, by sort and word before {changed:?}, with what will never come {given_up:?}"
    );
    let all = changed.iter().chain([&given_up]);
    assert!(all.flat_map(|words| &words[1..]).all(|count| *count >= 200), "{changed:?} {given_up:?}");
}

#[test]
fn a_suspended_piece_waits_for_a_listed_test() {
    let mut random = Random::new(0x7761_6974);
    let (mut waiting, mut moved) = ([[0; 2]; 3], 0);
    for _ in 0..24_000 {
        let Some(made) = made(&mut random) else { continue };
        let Some(graph) = made.built(&mut random) else { continue };
        let Some(piece) = made.piece(&mut random) else { continue };
        let bytes = piece_bytes(&piece);
        let before = walk(&made.bytes, &graph, &bytes).expect("an answer");
        if before.walk.word != Word::Suspend {
            continue;
        }
        let read_before = Piece::read(&bytes).expect("a piece");
        for _ in 0..8 {
            let chance = random.pick(&[10, 30, 60]);
            let further = piece_bytes(&further(&mut random, &piece, 1, chance));
            let read = Piece::read(&further).expect("a piece filled in further");
            if members(before.wait).any(|test| !made.keeps(test, &read_before, &read)) {
                moved += 1;
            } else if further != bytes {
                let after = walk(&made.bytes, &graph, &further).expect("an answer");
                let what = [&made.bytes, &bytes, &further].map(|bytes| to_hex(bytes));
                assert_eq!(after.walk.word, Word::Suspend, "sheet, piece, further: {what:?}");
                waiting[sort(&piece)][usize::from(before.wait != 0)] += 1;
            }
        }
    }
    println!("still waiting, by sort, without and with a list {waiting:?}, moved {moved}");
    for (counts, least) in waiting.iter().zip([500, 500, 200]) {
        assert!(counts.iter().all(|count| *count >= least), "{waiting:?}");
    }
    assert!(moved >= 500, "{moved}");
}

/// What the walk of a sheet's own graph says of a piece, and of the piece filled in further.
fn two_answers(sheet: &str, piece: &str, further: &str) -> [String; 2] {
    let graph = reference::own_graph(&from_hex(sheet)).expect("a graph");
    [piece, further]
        .map(|piece| walk(&from_hex(sheet), &graph, &from_hex(piece)).expect("an answer").to_string())
}

#[test]
fn a_listed_place_has_to_keep_what_it_held() {
    // X from 3 to 4, or anything: the span of all numbers is partly inside, so that its place is listed.
    let said = two_answers("10010225000003000420", "1101340000ffff", "1101322a6a");
    assert_eq!(said, ["suspend 0 1 0000000000000001", "commit 2 1 0000000000000000"]);
    // X from 1 to 3, or symbol 2: the unknown becomes a span, for which rule 1's test is still not known.
    let said = two_answers("100102250000010003210002", "110130", "11013400000002");
    assert_eq!(said, ["suspend 0 1 0000000000000001", "execute 1 1 0000000000000001"]);
}

/// What the walk of another maker's graph says of a piece. The graph is accepted.
fn foreign(sheet: &str, graph: &str, piece: &str) -> Result<String, Refusal> {
    let (sheet, graph) = (from_hex(sheet), from_hex(graph));
    assert!(check_graph(&sheet, &graph).is_ok());
    walk(&sheet, &graph, &from_hex(piece)).map(|answer| answer.to_string())
}

#[test]
fn on_another_makers_graph_a_piece_may_wait_for_what_is_not_listed() {
    let waits = Ok("suspend 0 1 0000000000000000".to_string());
    // Two rules from 1 to 9, and a graph that cuts inside their range: the span holds for both, no place is listed.
    let (sheet, graph) =
        ("100102220001000922 00010009", "120102000343000000010002000246000001000400014201 41");
    assert_eq!(foreign(sheet, graph, "11013400010009"), waits);
    let narrowed = foreign(sheet, graph, "11013400010004");
    assert_eq!(narrowed, Ok("commit 1 1 0000000000000000".into()));
    // One rule from 1 to 9, and a graph whose case from 1 to 4 leads back to its own node.
    let (sheet, graph) = ("1001012200010009", "1201010002430000000100010001460000010004000041");
    assert_eq!(foreign(sheet, graph, "11013400010009"), waits);
    assert_eq!(foreign(sheet, graph, "11013400010004"), Err(26));
    // Here the span of argument 2 is outside of all ranges, and its first number leads to a pair without end.
    let sheet = "100403240024002400210001240a240a240a240a25000002000424002500000400052400";
    let graph =
        "1204030003430055000300020002450001010001460000010002000146000002000400024700aa00ff0002000141";
    assert_eq!(foreign(sheet, graph, "110434000400053400010003310001310001"), waits);
    assert_eq!(foreign(sheet, graph, "110434000400053400010001310001310001"), Err(26));
    // (X, f(X)), and a graph that asks the pair at once: the 35 differs from what is below the unknown, which then lacks.
    let (sheet, graph) = ("10020124002300010124 00", "1202010002470000005600010001 41");
    assert_eq!(foreign(sheet, graph, "11023530"), waits);
    assert_eq!(foreign(sheet, graph, "110235310001"), Err(27));
}
