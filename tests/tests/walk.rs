//! The walk: answers, edges and wait lists on built graphs and on those of other makers, and questions
//! 20 to 27 in order.

use std::collections::BTreeMap;
use voltunnis_tests::both::walk;
use voltunnis_tests::bytes::from_hex;
use voltunnis_tests::generate::crowded::crowded;
use voltunnis_tests::generate::damage::damaged;
use voltunnis_tests::generate::graphs::graph;
use voltunnis_tests::generate::pieces::piece;
use voltunnis_tests::generate::random::Random;
use voltunnis_tests::generate::sheets::sheet;
use voltunnis_tests::generate::stock::Stock;
use voltunnis_tests::generate::trees::{piece_bytes, Pattern, SheetTree, Term};
use voltunnis_tests::reference::{self, nodes::graph_bytes, sheet::Sheet};
use voltunnis_tests::results::{Refusal, Word};
use voltunnis_tests::vectors;

/// f(X, X) and f(1, 2): tests 0 and 1 are places 0 and 85, test 2 is their pair.
const EXAMPLE: &str = "10 02 02 24 00 24 00 21 00 01 21 00 02";

/// f(g(1)), f(2): tests 0 and 1 are places 0 and 1.
const INSIDE: &str = "10 01 02 23 00 01 01 21 00 01 21 00 02";

/// A walk's line in the listing, or its refusal.
fn said(sheet: &str, graph: &str, piece: &str) -> Result<String, u8> {
    walk(&from_hex(sheet), &from_hex(graph), &from_hex(piece)).map(|answer| answer.to_string())
}

/// The graph that the reference builds.
fn built(sheet: &[u8]) -> Vec<u8> {
    let sheet = Sheet::read(sheet).expect("an accepted sheet");
    let nodes = reference::build::nodes(&sheet).expect("at most 1,024 nodes");
    graph_bytes(sheet.arity, sheet.rules.len() as u8, &nodes)
}

#[test]
fn the_vectors_pieces_are_walked_as_is_said() {
    for vector in vectors::all() {
        for (at, said) in vector.pieces.iter().enumerate() {
            let answer = walk(&vector.sheet, &vector.graph, &said.piece).expect("an answer");
            assert_eq!(format!("{} {answer}", at + 1), said.line, "{}", vector.name);
        }
    }
}

#[test]
fn questions_come_in_order() {
    let graph = "12 02 02 00 01 41";
    assert_eq!(said("10 02 02", "12", "11"), Err(4));
    assert_eq!(said(EXAMPLE, "12", "11 01 37"), Err(14));
    assert_eq!(said(EXAMPLE, "12", "11 01 34 00 01 00 00"), Err(32));
    assert_eq!(said(EXAMPLE, "12", "11 01 30"), Err(20));
    assert_eq!(said(EXAMPLE, "12", "11 01 35"), Err(20));
    assert_eq!(said(EXAMPLE, "12", "11 02 30 30"), Err(21));
    assert_eq!(said(EXAMPLE, "12 02 02 00 01 42 03", "11 02 30 30"), Err(23));
    assert_eq!(said(EXAMPLE, "12 02 02 00 01 41 41", "11 02 30 30"), Err(25));
    assert_eq!(said(EXAMPLE, graph, "11 02 30 30"), Ok("suspend 0 0 0000000000000000".into()));
}

#[test]
fn execute_makes_all_tests_of_its_rule() {
    let graph = "12 02 02 00 01 42 02";
    for (piece, line) in [
        ("11 02 31 00 01 31 00 02", "commit 2 0 0000000000000000"),
        ("11 02 31 00 01 30", "execute 2 0 0000000000000002"),
        ("11 02 30 30", "execute 2 0 0000000000000003"),
        ("11 02 30 31 00 03", "fail 0 0 0000000000000000"),
    ] {
        assert_eq!(said(EXAMPLE, graph, piece), Ok(line.into()), "{piece}");
    }
    // A place that the piece lacks contradicts there and is not refused.
    assert_eq!(
        said(INSIDE, "12 01 02 00 01 42 01", "11 01 31 00 01"),
        Ok("fail 0 0 0000000000000000".into())
    );
}

#[test]
fn question_27_asks_that_the_piece_has_the_place() {
    let graph = "12 01 02 00 02 43 00 01 00 01 00 01 00 01 44 00 01 00 01 00 01 41";
    assert_eq!(said(INSIDE, graph, "11 01 31 00 01"), Err(27));
    assert_eq!(said(INSIDE, graph, "11 01 32 00 01"), Err(27));
    assert_eq!(said(INSIDE, graph, "11 01 30"), Ok("suspend 0 1 0000000000000002".into()));
    assert_eq!(said(INSIDE, graph, "11 01 33 00 07 02 30 30"), Ok("suspend 0 1 0000000000000002".into()));
    assert_eq!(
        said(INSIDE, graph, "11 01 33 00 07 02 31 00 05 30"),
        Ok("suspend 0 1 0000000000000000".into())
    );
    // f(g(X), X): tests 0 and 1 are place 0 and the pair 1, 85.
    let linked = "10 02 01 23 00 01 01 24 00 24 00";
    let pair = "12 02 01 00 03 47 00 01 00 55 00 01 00 02 40 41";
    assert_eq!(said(linked, pair, "11 02 31 00 01 30"), Err(27));
    assert_eq!(said(linked, pair, "11 02 30 31 00 01"), Ok("suspend 0 1 0000000000000002".into()));
    assert_eq!(
        said(linked, pair, "11 02 33 00 01 01 31 00 02 31 00 01"),
        Ok("fail 0 1 0000000000000000".into())
    );
}

#[test]
fn question_26_asks_for_fewer_than_64_edges() {
    let switch = |next: usize| format!("43 00 00 00 01 {next:04x} {next:04x} 44 00 01 00 01 {next:04x}");
    let chain = |edges: usize| {
        let switches: String = (1..=edges).map(switch).collect();
        format!("12 02 02 {:04x} {switches} 41", edges + 1)
    };
    let piece = "11 02 30 30";
    assert_eq!(said(EXAMPLE, &chain(63), piece), Ok("suspend 0 63 0000000000000001".into()));
    assert_eq!(said(EXAMPLE, &chain(64), piece), Ok("suspend 0 64 0000000000000001".into()));
    assert_eq!(said(EXAMPLE, &chain(65), piece), Err(26));
    let around = "12 02 02 00 01 47 00 00 00 55 00 00 00 00";
    assert_eq!(said(EXAMPLE, around, piece), Err(26));
    // 26 comes before 27: the 65th node asks a place that the piece lacks.
    let lacking = |edges: usize| {
        let switches: String = (1..=edges).map(switch).collect();
        let last = "43 00 01 00 01 00 00 00 00 44 00 01 00 01 00 00";
        format!("12 01 02 {:04x} {switches} {last}", edges + 1)
    };
    assert_eq!(said(INSIDE, &lacking(64), "11 01 31 00 02"), Err(26));
    assert_eq!(said(INSIDE, &lacking(63), "11 01 31 00 02"), Err(27));
}

#[test]
fn cases_take_what_they_say() {
    let sheet = "10 01 02 21 00 01 22 00 05 00 09";
    let cases = "44 00 05 00 05 00 01 45 00 05 02 00 02 46 00 00 05 00 06 00 03 46 00 00 07 00 ff 00 01";
    let graph = format!("12 01 02 00 05 43 00 00 00 04 00 04 00 04 {cases} 40 42 01 42 02 41");
    for (term, line) in [
        ("31 00 05", "fail 0 1 0000000000000000"),
        ("33 00 05 02 30 30", "fail 0 1 0000000000000000"),
        ("33 00 05 01 30", "suspend 0 1 0000000000000000"),
        ("32 00 05", "commit 2 1 0000000000000000"),
        ("32 00 06", "commit 2 1 0000000000000000"),
        ("32 00 07", "fail 0 1 0000000000000000"),
        ("32 01 00", "suspend 0 1 0000000000000000"),
        ("31 00 06", "suspend 0 1 0000000000000000"),
        ("30", "suspend 0 1 0000000000000001"),
    ] {
        assert_eq!(said(sheet, &graph, &format!("11 01 {term}")), Ok(line.into()), "{term}");
    }
}

#[test]
fn a_built_graph_may_take_64_edges() {
    fn tree(depth: usize) -> Pattern {
        match depth {
            4 => Pattern::Anything,
            _ => Pattern::Compound(1, vec![tree(depth + 1); 4]),
        }
    }
    fn open(depth: usize) -> Term {
        match depth {
            4 => Term::Unknown,
            _ => Term::Compound(1, vec![open(depth + 1); 4]),
        }
    }
    let rule = vec![tree(1), tree(1), tree(1), Pattern::Symbol(1)];
    let sheet = SheetTree { arity: 4, rules: vec![rule; 2] }.bytes();
    let piece = piece_bytes(&[open(1), open(1), open(1), Term::Unknown]);
    let answer = walk(&sheet, &built(&sheet), &piece).expect("an answer");
    assert_eq!(answer.to_string(), "suspend 0 64 8000000000000000");
}

/// How often walks were refused by each question, answered by each word, and by a rule above 32.
#[derive(Default)]
struct Seen {
    refusals: BTreeMap<Refusal, usize>,
    words: [usize; 5],
    above_32: usize,
}

impl Seen {
    /// Walks a piece of the sheet over the graph; now and then piece or sheet is damaged.
    fn walk(&mut self, random: &mut Random, tree: &SheetTree, graph: &[u8]) {
        let mut bytes = tree.bytes();
        let mut piece = piece_bytes(&piece(random, tree, Stock::FULL));
        if random.percent(3) {
            piece = damaged(random, &piece);
        } else if random.percent(2) {
            bytes = damaged(random, &bytes);
        }
        match walk(&bytes, graph, &piece) {
            Ok(answer) => {
                self.words[answer.walk.word as usize] += 1;
                self.above_32 += usize::from(answer.walk.rule > 32);
            }
            Err(refusal) => *self.refusals.entry(refusal).or_default() += 1,
        }
    }
}

#[test]
fn library_and_reference_agree_on_random_walks() {
    let mut random = Random::new(0x7761_6c6b);
    let mut seen = Seen::default();
    for _ in 0..30_000 {
        let tree = if random.percent(3) { crowded(&mut random) } else { sheet(&mut random) };
        let Ok(sheet) = Sheet::read(&tree.bytes()) else {
            continue;
        };
        let graph = graph(&mut random, &sheet.asked(), || reference::build::nodes(&sheet).ok());
        for _ in 0..5 {
            seen.walk(&mut random, &tree, &graph);
        }
    }
    let Seen { refusals, words, above_32 } = seen;
    let walks = refusals.values().sum::<usize>() + words.iter().sum::<usize>();
    println!("{walks} walks, by refusal {refusals:?}, by word {words:?}, {above_32} by a rule above 32");
    assert!(walks >= 100_000, "{walks} walks");
    for (refusal, least) in (20..=27).map(|refusal| (refusal, 50)).chain([(32, 20)]) {
        let calls = refusals.get(&refusal).copied().unwrap_or(0);
        assert!(calls >= least, "{refusal}: {calls} calls");
    }
    for word in [Word::Commit, Word::Execute, Word::Suspend, Word::Fail] {
        assert!(words[word as usize] >= 300, "{}: {} answers", word.name(), words[word as usize]);
    }
    assert!(above_32 >= 150, "{above_32} answers by a rule above 32");
}
