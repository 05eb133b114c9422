//! Pattern 21 is the series of one symbol (document 02, request 5): both give the same graph and the same answers, and
//! tidying writes 21. And what is refused of series and of runs of ids.

use voltunnis_tests::both::{
    build, build_ordered, check_graph, check_sheet, enough, plain, rewrite, tidied, tidy, walk, walk_all,
};
use voltunnis_tests::bytes::{from_hex, to_hex};
use voltunnis_tests::count::Count;
use voltunnis_tests::generate::asked::Asked;
use voltunnis_tests::generate::crowded::crowded;
use voltunnis_tests::generate::graphs::graph;
use voltunnis_tests::generate::known;
use voltunnis_tests::generate::nodes::{Case, GraphNodes, Node};
use voltunnis_tests::generate::orders::{reversed, table};
use voltunnis_tests::generate::pieces::piece;
use voltunnis_tests::generate::random::Random;
use voltunnis_tests::generate::sheets::sheet;
use voltunnis_tests::generate::stock::Stock;
use voltunnis_tests::generate::stream::RESULT;
use voltunnis_tests::generate::trees::{piece_bytes, visit, Pattern, SheetTree};
use voltunnis_tests::reference::own_graph;
use voltunnis_tests::results::{GraphSize, Refusal, SheetSize, Written};

/// The sheet with all symbols as series, or with all series of one as symbols; and how many there were.
fn written(tree: &SheetTree, as_series: bool) -> (Vec<u8>, usize) {
    let (mut tree, mut count) = (tree.clone(), 0);
    for rule in &mut tree.rules {
        visit(rule, &mut |pattern| match *pattern {
            Pattern::Symbol(low) | Pattern::Series(low, _) if is_one(pattern) => {
                *pattern = if as_series { Pattern::Series(low, low) } else { Pattern::Symbol(low) };
                count += 1;
            }
            _ => {}
        });
    }
    (tree.bytes(), count)
}

/// Whether a pattern takes one symbol.
fn is_one(pattern: &Pattern) -> bool {
    matches!(pattern, Pattern::Symbol(_)) || matches!(pattern, Pattern::Series(low, high) if low == high)
}

#[test]
fn a_symbol_and_the_series_of_it_give_the_same_graph_and_the_same_tidy_sheet() {
    let mut random = Random::new(0x6f6e_6521);
    let order = table(&reversed());
    let (mut symbols, mut graphs) = (0, 0);
    for round in 0..4_000 {
        let tree = if round % 8 == 0 { crowded(&mut random) } else { sheet(&mut random) };
        let ((one, count), (other, _)) = (written(&tree, false), written(&tree, true));
        assert_eq!(one.len() + 2 * count, other.len());
        let size = check_sheet(&one);
        assert_eq!(check_sheet(&other), size, "{}", to_hex(&other));
        if size.is_err() {
            continue;
        }
        assert_eq!(to_hex(&tidied(&one)), to_hex(&tidied(&other)), "{}", to_hex(&other));
        let len = enough(&one, None);
        let built = build(&one, len);
        assert!(build(&other, len) == built, "another graph: {}", to_hex(&other));
        let len = enough(&one, Some(&order));
        assert!(build_ordered(&other, &order, len) == build_ordered(&one, &order, len), "{}", to_hex(&other));
        symbols += count;
        graphs += usize::from(built.0.is_ok() && count > 0);
    }
    assert!(symbols >= 10_000 && graphs >= 1_500, "{symbols} symbols in {graphs} graphs");
}

/// Both spellings of a sheet have equal results on a graph, and on pieces in turn and in one run.
fn alike(count: &mut Count, one: &[u8], other: &[u8], graph: &[u8], pieces: &[Vec<u8>]) {
    let what = || format!("sheet {} graph {}", to_hex(other), to_hex(graph));
    let checked = check_graph(one, graph);
    count.met(if checked.is_ok() { "graph" } else { "no graph" });
    assert_eq!(check_graph(other, graph), checked, "{}", what());
    for len in [graph.len().saturating_sub(1), graph.len() + 3] {
        assert!(rewrite(other, graph, len) == rewrite(one, graph, len), "{}", what());
    }
    for piece in pieces {
        assert_eq!(plain(other, piece), plain(one, piece), "{} piece {}", what(), to_hex(piece));
        let walked = walk(one, graph, piece);
        assert_eq!(walk(other, graph, piece), walked, "{} piece {}", what(), to_hex(piece));
        count.met(walked.map_or("refused".into(), |answer| answer.walk.word.to_string()));
        count.met(if walked.is_ok_and(|answer| answer.wait != 0) { "waits" } else { "waits for nothing" });
    }
    let (all, len) = (pieces.concat(), RESULT * pieces.len());
    assert!(walk_all(other, graph, &all, len) == walk_all(one, graph, &all, len), "{}", what());
}

#[test]
fn a_symbol_and_the_series_of_it_take_the_same_graphs_and_pieces() {
    let mut random = Random::new(0x616c_696b);
    let mut count = Count::default();
    for round in 0..2_000 {
        let tree = if round % 8 == 0 { crowded(&mut random) } else { sheet(&mut random) };
        let [one, other] = [false, true].map(|as_series| written(&tree, as_series).0);
        let own = own_graph(&one);
        let nodes = || own.as_deref().and_then(GraphNodes::read).map(|(graph, _)| graph.nodes);
        let given = graph(&mut random, &Asked::of(&tree), nodes);
        let pieces: Vec<Vec<u8>> =
            (0..4).map(|_| piece_bytes(&piece(&mut random, &tree, Stock::FULL))).collect();
        for graph in [Some(&given), own.as_ref()].into_iter().flatten() {
            alike(&mut count, &one, &other, graph, &pieces);
        }
    }
    count.print();
    count.often(300, ["commit", "execute", "suspend", "fail", "refused", "graph", "no graph", "waits"]);
}

#[test]
fn the_example_written_with_series_has_the_example_s_graph() {
    let other = from_hex("10 02 02 24 00 24 00 26 00 01 00 01 26 00 02 00 02");
    let graph = own_graph(&known::example()).expect("a graph");
    assert_eq!(graph.len(), 51);
    let (built, buffer) = build(&other, 51);
    assert_eq!(built.map(|built| (built.nodes, built.bytes)), Ok((6, 51)));
    assert_eq!(to_hex(&buffer), to_hex(&graph));
    assert_eq!(to_hex(&tidied(&other)), to_hex(&known::example()));
}

#[test]
fn tidying_writes_21_for_equal_ends_and_26_else() {
    for (sheet, form) in [
        ("10 01 01 26 00 05 00 05", "10 01 01 21 00 05"),
        ("10 01 01 26 00 00 00 00", "10 01 01 21 00 00"),
        ("10 01 01 26 ff ff ff ff", "10 01 01 21 ff ff"),
        ("10 01 01 21 00 05", "10 01 01 21 00 05"),
        ("10 01 01 26 00 05 00 06", "10 01 01 26 00 05 00 06"),
        ("10 01 01 26 00 05 01 05", "10 01 01 26 00 05 01 05"),
        ("10 01 01 26 00 00 ff ff", "10 01 01 26 00 00 ff ff"),
        // A range of one number stays a range.
        ("10 01 01 22 00 05 00 05", "10 01 01 22 00 05 00 05"),
        // Beside variables, in compounds, and in one of two rules.
        ("10 03 01 24 05 26 00 07 00 07 24 05", "10 03 01 24 00 21 00 07 24 00"),
        ("10 02 01 25 05 00 01 00 02 26 00 07 00 07", "10 02 01 22 00 01 00 02 21 00 07"),
        (
            "10 01 01 23 00 01 02 26 00 02 00 02 26 00 02 00 03",
            "10 01 01 23 00 01 02 21 00 02 26 00 02 00 03",
        ),
        ("10 01 02 26 00 01 00 09 26 00 03 00 03", "10 01 02 26 00 01 00 09 21 00 03"),
    ] {
        let (sheet, form) = (from_hex(sheet), from_hex(form));
        assert_eq!(to_hex(&tidied(&sheet)), to_hex(&form), "{}", to_hex(&sheet));
        let (written, buffer) = tidy(&sheet, form.len());
        assert_eq!(written, Ok(Written { bytes: form.len() as u32 }));
        assert_eq!(to_hex(&buffer), to_hex(&form));
        assert_eq!(tidy(&sheet, form.len() - 1).0, Err(31), "{}", to_hex(&sheet));
    }
}

#[test]
fn series_are_asked_questions_4_and_7() {
    let said = |hex: &str| check_sheet(&from_hex(hex));
    let accepted = Ok(SheetSize { arity: 1, rules: 1, tests: 1 });
    for ends in ["00 00 00 00", "00 00 ff ff", "ff ff ff ff", "00 ff 01 00"] {
        assert_eq!(said(&format!("10 01 01 26 {ends}")), accepted, "{ends}");
    }
    for ends in ["00 01 00 00", "01 00 00 ff", "ff ff ff fe", "ff ff 00 00"] {
        assert_eq!(said(&format!("10 01 01 26 {ends}")), Err(7), "{ends}");
    }
    for cut in ["26", "26 00", "26 00 01", "26 00 01 00", "26 00 02 00"] {
        assert_eq!(said(&format!("10 01 01 {cut}")), Err(4), "{cut}");
    }
    assert_eq!(said("10 01 01 28 00 01 00 02"), Err(4));
    // One pattern after another: the first no is said.
    assert_eq!(said("10 02 01 26 00 02 00 01 28"), Err(7));
    assert_eq!(said("10 02 01 26 00 01 00 02 28"), Err(4));
    assert_eq!(said("10 01 01 26 00 01 00 02 20"), Err(10));
    // At depth 4 too, and the place is one test for all rules.
    let deep = "23 00 01 01 23 00 01 01 23 00 01 01 26 00 01 00 02";
    assert_eq!(said(&format!("10 01 01 {deep}")), Ok(SheetSize { arity: 1, rules: 1, tests: 4 }));
    let rules = "26 00 01 00 02 21 00 01 22 00 01 00 02";
    assert_eq!(said(&format!("10 01 03 {rules}")), Ok(SheetSize { arity: 1, rules: 3, tests: 1 }));
}

/// What is said of a graph of one switch with these cases and a suspend.
fn cases(cases: &[&str]) -> Result<GraphSize, Refusal> {
    let graph = format!("12 01 01 00 02 43 00 00 {:04x} 00 01 00 01 {} 41", cases.len(), cases.concat());
    check_graph(&from_hex("10 01 01 21 00 01"), &from_hex(&graph))
}

#[test]
fn question_24_asks_for_runs_of_ids_that_ascend_apart() {
    let run = "44 00 05 00 09 00 01";
    for after in ["00 0a 00 0a", "00 0a ff ff", "00 0b 00 0c", "ff ff ff ff"] {
        assert_eq!(cases(&[run, &format!("44 {after} 00 00")]), Ok(GraphSize { nodes: 2 }), "{after}");
        assert_eq!(cases(&[&format!("44 {after} 00 00"), run]), Err(24), "{after}");
    }
    // An id in two cases, at one end, in the middle, or all of them.
    for shared in ["00 05 00 09", "00 09 00 0a", "00 07 00 07", "00 04 00 05", "00 00 ff ff", "00 05 00 0a"] {
        assert_eq!(cases(&[run, &format!("44 {shared} 00 00")]), Err(24), "{shared}");
        assert_eq!(cases(&[&format!("44 {shared} 00 00"), run]), Err(24), "{shared}");
    }
    assert_eq!(cases(&["44 00 00 ff ff 00 01"]), Ok(GraphSize { nodes: 2 }));
    assert_eq!(cases(&["44 00 05 00 04 00 01"]), Err(24));
    assert_eq!(cases(&["44 01 00 00 ff 00 01"]), Err(24));
    // Compounds and numbers come after, with any ids.
    assert_eq!(cases(&[run, "45 00 05 01 00 01", "46 00 00 05 00 09 00 01"]), Ok(GraphSize { nodes: 2 }));
    assert_eq!(cases(&["45 00 05 01 00 01", run]), Err(24));
    assert_eq!(cases(&[run, "44 00 0a 00 0a 00 02"]), Err(23));
}

/// The graph with symbols in the older form, one id and the node; none if it has no case of symbols.
fn older(graph: &GraphNodes) -> Option<Vec<u8>> {
    let mut bytes =
        [&[0x12, graph.arity, graph.rules][..], &(graph.nodes.len() as u16).to_be_bytes()].concat();
    let mut symbols = 0;
    for node in &graph.nodes {
        let start = bytes.len();
        node.write(&mut bytes);
        let Node::Switch { cases, .. } = node else { continue };
        let mut at = start + 9;
        for case in cases {
            match case {
                Case::Symbols { .. } => {
                    bytes.drain(at + 3..at + 5);
                    symbols += 1;
                    at += 5;
                }
                Case::Compound { .. } => at += 6,
                Case::Numbers { .. } => at += 8,
            }
        }
    }
    (symbols > 0).then_some(bytes)
}

#[test]
fn graphs_in_the_older_form_are_refused() {
    let read = |bytes: &[u8]| GraphNodes::read(bytes).map(|(graph, _)| graph);
    // The example: the node of its first case would be 4300.
    let example = own_graph(&known::example()).as_deref().and_then(read).as_ref().and_then(older);
    let example = example.expect("symbols");
    assert_eq!(example.len(), 47);
    assert_eq!(check_graph(&known::example(), &example), Err(23));
    // Where nothing follows, the case is cut.
    let alone = from_hex("12 01 01 00 01 43 00 00 00 01 00 00 00 00 44 00 01 00 00");
    assert_eq!(check_graph(&from_hex("10 01 01 21 00 01"), &alone), Err(22));
    let mut random = Random::new(0x6f6c_6465);
    let mut refusals = [0; 26];
    for _ in 0..3_000 {
        let sheet = sheet(&mut random).bytes();
        let Some(graph) = own_graph(&sheet).as_deref().and_then(read) else { continue };
        let Some(bytes) = older(&graph) else { continue };
        let refusal = check_graph(&sheet, &bytes).expect_err("an older graph");
        refusals[usize::from(refusal)] += 1;
    }
    // The two bytes after a symbol's node begin a record, and no node has so high a number.
    assert_eq!(refusals.iter().sum::<usize>(), refusals[22] + refusals[23], "{refusals:?}");
    assert!(refusals[22] >= 100 && refusals[23] >= 100, "{refusals:?}");
}
