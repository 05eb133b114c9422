//! Gauge 0 has two spellings (document 02, request 7): record 36 with gauge 0 is record 32, pattern 27 with gauge 0 is
//! pattern 22. Every call that takes a piece or a sheet says the same of both, and tidying writes 22.

use voltunnis_tests::both::{
    build, build_ordered, check_graph, check_piece, check_sheet, enough, plain, rewrite, tidied, tidy, walk,
    walk_all,
};
use voltunnis_tests::bytes::{from_hex, to_hex};
use voltunnis_tests::count::Count;
use voltunnis_tests::generate::asked::Asked;
use voltunnis_tests::generate::crowded::crowded;
use voltunnis_tests::generate::disguise::disguise_piece;
use voltunnis_tests::generate::graphs::graph;
use voltunnis_tests::generate::nodes::GraphNodes;
use voltunnis_tests::generate::orders::{reversed, table};
use voltunnis_tests::generate::pieces::piece;
use voltunnis_tests::generate::random::Random;
use voltunnis_tests::generate::sheets::sheet;
use voltunnis_tests::generate::stock::Stock;
use voltunnis_tests::generate::stream::RESULT;
use voltunnis_tests::generate::trees::{piece_bytes, visit, Pattern, SheetTree, Term};
use voltunnis_tests::reference::own_graph;
use voltunnis_tests::results::{in_hex, Answer, Refusal, Run, Written};

/// The sheet with all ranges on gauge 0 by its name, or all without; and how many there were.
fn written(tree: &SheetTree, by_name: bool) -> (Vec<u8>, usize) {
    let (mut tree, mut count) = (tree.clone(), 0);
    for rule in &mut tree.rules {
        visit(rule, &mut |pattern| {
            if let Pattern::Range(low, high) | Pattern::Gauged(0, low, high) = *pattern {
                *pattern = if by_name { Pattern::Gauged(0, low, high) } else { Pattern::Range(low, high) };
                count += 1;
            }
        });
    }
    (tree.bytes(), count)
}

/// What a writer said, and its buffer in digits.
fn spelled<W>((said, buffer): (Result<W, Refusal>, Vec<u8>)) -> (Result<W, Refusal>, String) {
    (said, to_hex(&buffer))
}

#[test]
fn ranges_by_either_name_give_the_same_graph_and_the_same_tidy_sheet() {
    let mut random = Random::new(0x7a65_726f);
    let order = table(&reversed());
    let (mut ranges, mut graphs) = (0, 0);
    for round in 0..4_000 {
        let tree = if round % 8 == 0 { crowded(&mut random) } else { sheet(&mut random) };
        let ((one, count), (other, _)) = (written(&tree, false), written(&tree, true));
        assert_eq!(one.len() + count, other.len());
        let size = check_sheet(&one);
        assert_eq!(check_sheet(&other), size, "{}", to_hex(&other));
        if size.is_err() {
            continue;
        }
        assert_eq!(to_hex(&tidied(&one)), to_hex(&tidied(&other)), "{}", to_hex(&other));
        let len = enough(&one, None);
        let built = spelled(build(&one, len));
        assert_eq!(spelled(build(&other, len)), built, "{}", to_hex(&other));
        let len = enough(&one, Some(&order));
        let [ordered, again] = [&one, &other].map(|sheet| spelled(build_ordered(sheet, &order, len)));
        assert_eq!(again, ordered, "{}", to_hex(&other));
        ranges += count;
        graphs += usize::from(built.0.is_ok() && count > 0);
    }
    assert!(ranges >= 10_000 && graphs >= 1_500, "{ranges} ranges in {graphs} graphs");
}

/// What each walk of pieces says, one by one; how many results they have in a run; and its buffer in digits.
type Said = (Vec<Result<Answer, Refusal>>, Result<u32, Refusal>, String);

/// What the calls say of a sheet, a graph and pieces. In a run that is accepted each has the result that it has alone, up
/// to the first that cannot be read.
fn said(sheet: &[u8], graph: &[u8], pieces: &[Vec<u8>]) -> Said {
    let each: Vec<_> = pieces.iter().map(|piece| walk(sheet, graph, piece)).collect();
    let all = pieces.concat();
    let (run, results) = spelled(walk_all(sheet, graph, &all, RESULT * pieces.len()));
    if run.is_ok() {
        let what = || format!("sheet {} graph {} pieces {}", to_hex(sheet), to_hex(graph), to_hex(&all));
        let read = pieces.iter().take_while(|piece| check_piece(piece).is_ok()).count();
        let (count, bytes) = (pieces.len().min(read + 1), pieces[..read].concat().len());
        assert_eq!(run, Ok(Run { results: count as u32, bytes: bytes as u32 }), "{}", what());
        let alone: String = each[..count].iter().copied().map(in_hex).collect();
        assert_eq!(results[..2 * RESULT * count], alone, "{}", what());
    }
    (each, run.map(|run| run.results), results)
}

/// The word of a walk, to be counted.
fn word(walk: Result<Answer, Refusal>) -> &'static str {
    walk.map_or("refused", |answer| answer.walk.word.name())
}

#[test]
fn ranges_by_either_name_take_the_same_graphs_and_pieces() {
    let mut random = Random::new(0x616c_696b);
    let mut count = Count::default();
    for round in 0..2_000 {
        let tree = if round % 8 == 0 { crowded(&mut random) } else { sheet(&mut random) };
        let [one, other] = [false, true].map(|by_name| written(&tree, by_name).0);
        let own = own_graph(&one);
        let nodes = || own.as_deref().and_then(GraphNodes::read).map(|(graph, _)| graph.nodes);
        let given = graph(&mut random, &Asked::of(&tree), nodes);
        let pieces: Vec<Vec<u8>> =
            (0..4).map(|_| piece_bytes(&piece(&mut random, &tree, Stock::FULL))).collect();
        for graph in [Some(&given), own.as_ref()].into_iter().flatten() {
            let what = || format!("sheet {} graph {}", to_hex(&other), to_hex(graph));
            let checked = check_graph(&one, graph);
            count.met(if checked.is_ok() { "graph" } else { "no graph" });
            assert_eq!(check_graph(&other, graph), checked, "{}", what());
            let len = graph.len();
            let [again, rewritten] = [&other, &one].map(|sheet| spelled(rewrite(sheet, graph, len)));
            assert_eq!(again, rewritten, "{}", what());
            let walks = said(&one, graph, &pieces);
            assert_eq!(said(&other, graph, &pieces), walks, "{}", what());
            walks.0.iter().for_each(|walk| count.met(word(*walk)));
        }
        for piece in &pieces {
            assert_eq!(plain(&other, piece), plain(&one, piece), "{} {}", to_hex(&other), to_hex(piece));
        }
    }
    count.print();
    count.often(300, ["commit", "execute", "suspend", "fail", "refused", "graph", "no graph"]);
}

/// How many numbers of terms name gauge 0.
fn named(terms: &[Term]) -> usize {
    let of = |term: &Term| match term {
        Term::Gauged(0, _) => 1,
        Term::Compound(_, arguments) => named(arguments),
        _ => 0,
    };
    terms.iter().map(of).sum()
}

#[test]
fn numbers_by_either_name_are_the_same_in_every_call() {
    let mut random = Random::new(0x7069_6563);
    let mut count = Count::default();
    for _ in 0..10_000 {
        let tree = sheet(&mut random);
        let sheet = tree.bytes();
        let terms = piece(&mut random, &tree, Stock::FULL);
        let other = disguise_piece(&mut random, &terms);
        let (one, two) = (piece_bytes(&terms), piece_bytes(&other));
        assert_eq!(check_piece(&two), check_piece(&one), "{}", to_hex(&two));
        let answer = plain(&sheet, &one);
        let what = || format!("sheet {} pieces {} {}", to_hex(&sheet), to_hex(&one), to_hex(&two));
        assert_eq!(plain(&sheet, &two), answer, "{}", what());
        let graph = match own_graph(&sheet) {
            Some(graph) if random.percent(70) => graph,
            _ => graph(&mut random, &Asked::of(&tree), || None),
        };
        let [walked, again] = [&one, &two].map(|piece| said(&sheet, &graph, std::slice::from_ref(piece)));
        assert_eq!(again, walked, "{}", what());
        if one != two {
            let walked = walked.0[0];
            count.met(word(walked));
            let waits = walked.is_ok_and(|answer| answer.wait != 0);
            count.met(if waits { "waits" } else { "waits for nothing" });
            count.met(if named(&terms) < named(&other) { "named" } else { "name dropped" });
        }
    }
    count.print();
    count.often(100, ["commit", "execute", "suspend", "fail", "refused", "waits", "named", "name dropped"]);
}

#[test]
fn tidying_writes_22_for_gauge_0_and_27_else() {
    for (sheet, form) in [
        ("10 01 01 27 00 00 05 00 09", "10 01 01 22 00 05 00 09"),
        ("10 01 01 27 00 00 00 ff ff", "10 01 01 22 00 00 ff ff"),
        ("10 01 01 22 00 05 00 09", "10 01 01 22 00 05 00 09"),
        ("10 01 01 27 01 00 05 00 09", "10 01 01 27 01 00 05 00 09"),
        ("10 01 01 27 ff 00 00 00 00", "10 01 01 27 ff 00 00 00 00"),
        // A range of one number keeps both ends, on every gauge.
        ("10 01 01 27 00 00 05 00 05", "10 01 01 22 00 05 00 05"),
        ("10 01 01 27 02 00 05 00 05", "10 01 01 27 02 00 05 00 05"),
        // Beside variables, in compounds, and in one of two rules.
        ("10 03 01 24 05 27 00 00 07 00 07 24 05", "10 03 01 24 00 22 00 07 00 07 24 00"),
        ("10 02 01 25 05 00 01 00 02 27 03 00 07 00 07", "10 02 01 22 00 01 00 02 27 03 00 07 00 07"),
        (
            "10 01 01 23 00 01 02 27 00 00 02 00 02 27 01 00 02 00 03",
            "10 01 01 23 00 01 02 22 00 02 00 02 27 01 00 02 00 03",
        ),
        ("10 01 02 27 01 00 01 00 09 27 00 00 03 00 03", "10 01 02 27 01 00 01 00 09 22 00 03 00 03"),
        // 3 bytes less in all: a symbol of one, and gauge 0.
        ("10 02 01 26 00 05 00 05 27 00 00 05 00 05", "10 02 01 21 00 05 22 00 05 00 05"),
    ] {
        let (sheet, form) = (from_hex(sheet), from_hex(form));
        assert_eq!(to_hex(&tidied(&sheet)), to_hex(&form), "{}", to_hex(&sheet));
        let (written, buffer) = tidy(&sheet, form.len());
        assert_eq!(written, Ok(Written { bytes: form.len() as u32 }));
        assert_eq!(to_hex(&buffer), to_hex(&form));
        assert_eq!(tidy(&sheet, form.len() - 1).0, Err(31), "{}", to_hex(&sheet));
    }
}
