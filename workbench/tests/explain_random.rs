//! Walks retraced from the bytes of graphs, built and another maker's, come to the library's answer or
//! refusal, wait list and edges included; and the tests are those that the library counts.

use voltunnis::Word;
use voltunnis_generate::asked::Asked;
use voltunnis_generate::bytes::to_hex;
use voltunnis_generate::crowded::crowded;
use voltunnis_generate::graphs::graph;
use voltunnis_generate::pieces::piece;
use voltunnis_generate::random::Random;
use voltunnis_generate::sheets::sheet;
use voltunnis_generate::stock::Stock;
use voltunnis_generate::trees::{piece_bytes, SheetTree};
use voltunnis_workbench::notation::{Case, Graph, Kind, Piece, Sheet, Term, What};
use voltunnis_workbench::retrace::{retrace, Step};
use voltunnis_workbench::sheet_tests::{SheetTests, Test};
use voltunnis_workbench::truth::{find, nevers, Found};

/// How often each answer's word was met, and the refusals 26 and 27; steps at which several cases contain what stands
/// there, steps of suspended pieces at which a span lies partly inside a range, and steps by a run of several ids; walks
/// that wait although a reading of theirs will never come, and pairs that differ by one beside an unknown; steps by a case
/// of a named gauge, and numbers that go to neither although another gauge has cases.
#[derive(Debug, Default)]
struct Met {
    words: [usize; 5],
    refusals: [usize; 28],
    chosen: usize,
    partly: usize,
    runs: usize,
    waits: usize,
    beside: usize,
    gauged: usize,
    elsewhere: usize,
}

/// Whether a step goes by a case of several ids.
fn takes_run(graph: &Graph, step: &Step) -> bool {
    let Kind::Switch { cases, .. } = &graph.nodes[usize::from(step.node)].kind else { return false };
    matches!(cases.get(step.edge), Some((Case::Symbols(low, high), _)) if low < high)
}

/// The gauge of the case by which a step goes, if it is one of numbers.
fn gauge(graph: &Graph, step: &Step) -> Option<u8> {
    let Kind::Switch { cases, .. } = &graph.nodes[usize::from(step.node)].kind else { return None };
    match cases.get(step.edge)?.0 {
        Case::Numbers(gauge, ..) => Some(gauge),
        Case::Symbols(..) | Case::Compound(..) => None,
    }
}

/// Whether a step asks for a number whose gauge has no case, though another has.
fn is_elsewhere(graph: &Graph, piece: &Piece, step: &Step) -> bool {
    let Kind::Switch { place, cases, .. } = &graph.nodes[usize::from(step.node)].kind else { return false };
    let Found::Term(Term { what, .. }) = find(piece, *place) else { return false };
    let numbers = || cases.iter().filter(|(case, _)| matches!(case, Case::Numbers(..)));
    let is_on = |on: u8| numbers().any(|(case, _)| matches!(case, Case::Numbers(gauge, ..) if *gauge == on));
    what.numbers().is_some_and(|(on, ..)| numbers().next().is_some() && !is_on(on))
}

/// Whether a step asks for two places, one of which has what will never come, and the other an unknown.
fn is_beside(piece: &Piece, step: &Step) -> bool {
    let Test::Pair(p, q) = step.asks else { return false };
    let late = |place| match find(piece, place) {
        Found::Term(Term { what, .. }) => matches!(what, What::Unknown),
        Found::BelowUnknown => true,
        Found::Lacking => false,
    };
    !nevers(piece, step.asks).is_empty() && (late(p) || late(q))
}

/// Retraces the walks of some pieces over a graph that the library accepts.
fn retraced(random: &mut Random, tree: &SheetTree, graph: &[u8], met: &mut Met) {
    let sheet = tree.bytes();
    let tests = SheetTests::of(&Sheet::read(&sheet).expect("a sheet"));
    let nodes = Graph::read(graph).expect("a graph");
    for _ in 0..8 {
        let bytes = piece_bytes(&piece(random, tree, Stock::FULL));
        let library = voltunnis::answer(&sheet, graph, &bytes).map_err(u8::from);
        if library.is_err_and(|number| number < 26) {
            continue;
        }
        let piece = Piece::read(&bytes).expect("a piece");
        let way = retrace(&tests, &nodes, &piece);
        let what = || format!("sheet {} graph {} piece {}", to_hex(&sheet), to_hex(graph), to_hex(&bytes));
        assert_eq!(way.answer, library, "here, library: {}", what());
        match library {
            Ok(answer) => {
                // What will never come is not waited for.
                let listed = tests.tests.iter().filter(|test| tests.bit(**test) & answer.wait != 0);
                assert!(listed.copied().all(|test| nevers(&piece, test).is_empty()), "{}", what());
                let holds = piece.terms.iter().any(|term| term.what.holds_never());
                met.waits += usize::from(answer.wait != 0 && holds);
                met.words[answer.walk.word as usize] += 1;
                let partly = way.steps.iter().filter(|step| step.partly != 0).count();
                met.partly += if answer.walk.word == Word::Suspend { partly } else { 0 };
            }
            Err(number) => met.refusals[usize::from(number)] += 1,
        }
        met.chosen += way.steps.iter().filter(|step| step.contain > 1).count();
        met.runs += way.steps.iter().filter(|step| takes_run(&nodes, step)).count();
        met.beside += way.steps.iter().filter(|step| is_beside(&piece, step)).count();
        met.gauged += way.steps.iter().filter(|step| gauge(&nodes, step).is_some_and(|on| on > 0)).count();
        met.elsewhere += way.steps.iter().filter(|step| is_elsewhere(&nodes, &piece, step)).count();
    }
}

#[test]
fn retraced_walks_come_to_the_librarys_answer() {
    let mut random = Random::new(0x7761_6c6b);
    let mut met = Met::default();
    for _ in 0..4_000 {
        let tree = if random.percent(5) { crowded(&mut random) } else { sheet(&mut random) };
        let sheet = tree.bytes();
        let Ok(size) = voltunnis::check_sheet(&sheet) else { continue };
        let tests = SheetTests::of(&Sheet::read(&sheet).expect("a sheet"));
        assert_eq!(tests.tests.len(), usize::from(size.tests), "{}", to_hex(&sheet));
        if let Ok(built) = voltunnis::graph(&sheet) {
            retraced(&mut random, &tree, &built, &mut met);
        }
        let other = graph(&mut random, &Asked::of(&tree), || None);
        if voltunnis::check_graph(&sheet, &other).is_ok() {
            retraced(&mut random, &tree, &other, &mut met);
        }
    }
    println!("{met:?}");
    assert!(met.words[1..].iter().all(|count| *count > 500), "{met:?}");
    assert!(met.refusals[26] > 20 && met.refusals[27] > 20, "{met:?}");
    assert!(met.chosen > 500 && met.partly > 100 && met.runs > 500, "{met:?}");
    assert!(met.waits > 500 && met.beside > 50, "{met:?}");
    assert!(met.gauged > 500 && met.elsewhere > 500, "{met:?}");
}
