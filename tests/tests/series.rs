//! Series of symbols (document 02, request 5): the shared vectors, runs of ids byte for byte, and which case a symbol
//! follows.

use voltunnis_tests::both::{build, check_graph, enough, plain, walk};
use voltunnis_tests::bytes::{from_hex, to_hex};
use voltunnis_tests::generate::known;
use voltunnis_tests::generate::nodes::{graph_bytes, Case, GraphNodes, Node};
use voltunnis_tests::generate::random::Random;
use voltunnis_tests::generate::trees::{piece_bytes, Pattern, SheetTree, Term};
use voltunnis_tests::request;
use voltunnis_tests::results::{GraphSize, Plain};

/// The vectors of request 5, the example's graph and answers as request 6 makes them, number cases as request 7 does. One
/// that is shared twice is here with 26 and with 21.
const VECTORS: &str = include_str!("../vectors/series.txt");

#[test]
fn the_shared_vectors_are_met() {
    let calls: Vec<&str> = VECTORS.lines().map(|line| request::met(line, &["5", "6", "7"])).collect();
    let of = |name: &str| calls.iter().filter(|call| **call == name).count();
    assert_eq!((of("build"), of("tidy"), of("listing"), calls.len()), (5, 2, 2, 9));
}

/// The graph of an accepted sheet, which is checked too.
#[track_caller]
fn graph(sheet: &[u8]) -> Vec<u8> {
    let (built, mut buffer) = build(sheet, enough(sheet, None));
    let built = built.expect("a graph");
    buffer.truncate(built.bytes as usize);
    assert_eq!(check_graph(sheet, &buffer), Ok(GraphSize { nodes: built.nodes }));
    buffer
}

/// The sheet of one argument whose rules want these series.
fn of_series(series: &[(u16, u16)]) -> Vec<u8> {
    let rules = series.iter().map(|(low, high)| vec![Pattern::Series(*low, *high)]).collect();
    SheetTree { arity: 1, rules }.bytes()
}

/// The nodes of a graph.
fn nodes(graph: &[u8]) -> Vec<Node> {
    let (graph, rest) = GraphNodes::read(graph).expect("a graph");
    assert!(rest.is_empty());
    graph.nodes
}

/// The runs of ids of a switch that has no other cases, each with its node.
fn runs_of(node: &Node) -> Vec<(u16, u16, u16)> {
    let Node::Switch { cases, .. } = node else { panic!("no switch: {node:?}") };
    let run = |case: &Case| match case {
        Case::Symbols { low, high, node } => (*low, *high, *node),
        _ => panic!("another case: {case:?}"),
    };
    cases.iter().map(run).collect()
}

/// The runs of ids at the root of a graph, each with its node.
fn runs(graph: &[u8]) -> Vec<(u16, u16, u16)> {
    runs_of(&nodes(graph)[0])
}

/// What the walk on the sheet's graph says of a term, which is also the plain answer.
#[track_caller]
fn said(sheet: &[u8], graph: &[u8], term: Term) -> String {
    let piece = piece_bytes(&[term]);
    let answer = walk(sheet, graph, &piece).expect("an answer");
    assert_eq!(plain(sheet, &piece), Ok(Plain { word: answer.walk.word, rule: answer.walk.rule }));
    answer.to_string()
}

#[test]
fn series_at_both_ends_of_the_ids_have_their_runs() {
    for (series, expected) in [
        (&[(0, 0), (0, 0xffff), (0xffff, 0xffff)][..], &[(0, 0, 1), (1, 0xfffe, 2), (0xffff, 0xffff, 1)][..]),
        (&[(0, 0), (0xffff, 0xffff)], &[(0, 0, 1), (0xffff, 0xffff, 2)]),
        (&[(0, 0xffff), (0, 0xffff)], &[(0, 0xffff, 1)]),
        (&[(0, 0x7fff), (0x8000, 0xffff)], &[(0, 0x7fff, 1), (0x8000, 0xffff, 2)]),
        (&[(0, 0xfffe), (1, 0xffff)], &[(0, 0, 1), (1, 0xfffe, 2), (0xffff, 0xffff, 3)]),
        (&[(5, 5), (4, 6)], &[(4, 4, 1), (5, 5, 2), (6, 6, 1)]),
    ] {
        assert_eq!(runs(&graph(&of_series(series))), expected, "{series:?}");
    }
    // The first of them byte for byte. Nodes 1 to 3 are suspend, execute 2 and fail.
    let graph = graph(&of_series(&[(0, 0), (0, 0xffff), (0xffff, 0xffff)]));
    let cases = "44 00 00 00 00 00 01 44 00 01 ff fe 00 02 44 ff ff ff ff 00 01";
    let expected = format!("12 01 03 00 04 43 00 00 00 03 00 03 00 01 {cases} 41 42 02 40");
    assert_eq!(to_hex(&graph), to_hex(&from_hex(&expected)));
}

#[test]
fn series_that_all_overlap_have_two_runs_for_each_but_one() {
    for (rules, count) in [(2, 3), (32, 63), (64, 127)] {
        let graph = graph(&known::staggered(rules));
        assert_eq!(u16::from_be_bytes([graph[8], graph[9]]), count, "{rules} rules");
        let runs = runs(&graph);
        assert_eq!(runs.len(), usize::from(count));
        assert!(runs.windows(2).all(|two| two[0].1 + 1 == two[1].0), "a gap: {runs:?}");
        assert_eq!((runs[0].0, runs[runs.len() - 1].1), (0, 1000 + rules - 1));
        // Leaves: suspend, the first and the last rule's execute, fail.
        assert_eq!(graph.len(), 5 + 9 + 7 * usize::from(count) + 1 + 2 + 2 + 1);
    }
}

#[test]
fn runs_beside_each_other_are_one_where_the_same_live_rules_accept_them() {
    // 1 to 5, 6 to 9 and twice 1 to 9: the first two part the ids.
    let series = [(1, 5), (6, 9), (1, 9), (1, 9)];
    assert_eq!(runs(&graph(&of_series(&series))), [(1, 5, 1), (6, 9, 1)]);
    assert_eq!(runs(&graph(&of_series(&series[2..]))), [(1, 9, 1)]);
    // The same after another symbol, by which the first two are dropped or not.
    let rule = |id: u16, (low, high): (u16, u16)| vec![Pattern::Symbol(id), Pattern::Series(low, high)];
    let rules = [rule(1, (1, 5)), rule(1, (6, 9)), rule(2, (1, 9)), rule(2, (1, 9))].to_vec();
    let nodes = nodes(&graph(&SheetTree { arity: 2, rules }.bytes()));
    let second = nodes.iter().filter(|node| matches!(node, Node::Switch { place: 85, .. }));
    let ends = |node: &Node| runs_of(node).into_iter().map(|(low, high, _)| (low, high)).collect();
    let all: Vec<Vec<(u16, u16)>> = second.map(ends).collect();
    // After 1, after 2, and after an unknown, where all are live.
    assert_eq!(all, [vec![(1, 5), (6, 9)], vec![(1, 9)], vec![(1, 5), (6, 9)]]);
}

#[test]
fn symbols_at_the_ends_of_runs_and_just_outside_are_answered() {
    let mut random = Random::new(0x7275_6e73);
    let ids = [0, 1, 2, 3, 5, 8, 0x00ff, 0x0100, 0xfffd, 0xfffe, 0xffff];
    let mut met = [0; 3];
    for _ in 0..400 {
        let two = |random: &mut Random| (random.pick(&ids), random.pick(&ids));
        let series: Vec<(u16, u16)> = (0..random.between(2, 6))
            .map(|_| two(&mut random))
            .map(|(one, other)| (one.min(other), one.max(other)))
            .collect();
        let sheet = of_series(&series);
        let graph = graph(&sheet);
        for id in ids.iter().flat_map(|id| [id.saturating_sub(1), *id, id.saturating_add(1)]) {
            let takers: Vec<usize> =
                (0..series.len()).filter(|at| (series[*at].0..=series[*at].1).contains(&id)).collect();
            let expected = match takers[..] {
                [] => "fail 0".to_string(),
                [only] => format!("commit {}", only + 1),
                _ => "suspend 0".to_string(),
            };
            let answer = said(&sheet, &graph, Term::Symbol(id));
            assert_eq!(answer, format!("{expected} 1 0000000000000000"), "{series:?} {id}");
            met[takers.len().min(2)] += 1;
        }
        // Other terms follow neither, even where all ids have a case.
        for term in [Term::Number(2), Term::Span(0, 0xffff), Term::Compound(2, vec![Term::Unknown])] {
            assert_eq!(said(&sheet, &graph, term), "fail 0 1 0000000000000000");
        }
        assert_eq!(said(&sheet, &graph, Term::Unknown), "suspend 0 1 0000000000000001");
    }
    assert!(met.iter().all(|count| *count >= 1_000), "{met:?}");
}

#[test]
fn on_any_accepted_graph_the_run_that_has_the_id_is_followed() {
    // Rule 1 wants a series; node i executes rule i, each of the others without a test.
    let sheet = [&from_hex("10 01 40 26 00 00 ff ff")[..], &[0x20; 63]].concat();
    let mut random = Random::new(0x666f_6c6c);
    let (mut taken, mut neither) = (0, 0);
    for _ in 0..1_000 {
        let (mut cases, mut from) = (Vec::new(), random.below(3));
        while from < 0x1_0000 && cases.len() < 63 {
            let high = (from + random.pick(&[0, 0, 1, 5, 300, 9000])).min(0xffff);
            cases.push(Case::Symbols { low: from as u16, high: high as u16, node: cases.len() as u16 + 2 });
            from = high + 1 + random.pick(&[0, 0, 1, 2, 700]);
        }
        let runs = cases.clone();
        cases.extend([
            Case::Compound { id: 1, arity: 1, node: 1 },
            Case::Numbers { gauge: 0, low: 0, high: 9, node: 1 },
        ]);
        let mut nodes = vec![Node::Switch { place: 0, neither: 1, unknown: 1, cases }];
        nodes.extend((1..=64).map(Node::Execute));
        let graph = graph_bytes(1, 64, &nodes);
        assert_eq!(check_graph(&sheet, &graph), Ok(GraphSize { nodes: 65 }));
        for _ in 0..12 {
            let Case::Symbols { low, high, .. } = random.pick(&runs) else { panic!("a run of ids") };
            let id = random.pick(&[low, high, low.saturating_sub(1), high.saturating_add(1)]);
            let has = |case: &&Case| matches!(case, Case::Symbols { low, high, .. } if (*low..=*high).contains(&id));
            let expected = runs.iter().find(has).map_or(1, Case::node);
            let answer = walk(&sheet, &graph, &piece_bytes(&[Term::Symbol(id)])).expect("an answer");
            assert_eq!(u16::from(answer.walk.rule), expected, "{runs:?} {id}");
            *(if expected == 1 { &mut neither } else { &mut taken }) += 1;
        }
    }
    assert!(taken >= 5_000 && neither >= 1_000, "{taken} {neither}");
}
