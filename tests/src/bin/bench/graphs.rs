//! The calls that build, check, write again and walk the graph of a case.

use crate::cases::Case;
use crate::table::{outcome, Table};
use crate::timing::{against, against_both, Times};
use voltunnis_tests::generate::known;
use voltunnis_tests::generate::random::Random;
use voltunnis_tests::generate::trees::{piece_bytes, Term};
use voltunnis_tests::results::Built;
use voltunnis_tests::{fast, reference, voltunnis};

/// The graph of a sheet, empty if it has none, and its size in words.
fn graph_of(sheet: &[u8]) -> (Vec<u8>, String) {
    let mut graph = reference::own_graph(sheet).unwrap_or_default();
    let built = reference::build(sheet, &mut graph);
    let size = match built {
        Ok(Built { nodes, bytes }) => format!("{nodes} nodes, {bytes} bytes"),
        Err(_) => outcome(&built),
    };
    (graph, size)
}

/// The rows of one case; none but the build's where the sheet has no graph.
pub fn rows(table: &mut Table, case: &Case) {
    let (graph, size) = graph_of(&case.sheet);
    build_row(table, case, &size, graph.len());
    if graph.is_empty() {
        return;
    }
    written_rows(table, case, &graph, &size);
    walk_row(table, case, &graph, &size);
    walks_row(table, case, &graph);
}

/// The rows of one case's walks alone.
pub fn walk_rows(table: &mut Table, case: &Case) {
    let (graph, size) = graph_of(&case.sheet);
    walk_row(table, case, &graph, &size);
    walks_row(table, case, &graph);
}

fn build_row(table: &mut Table, Case { name, sheet, .. }: &Case, size: &str, len: usize) {
    let (one, two, three) = (&mut vec![0; len], &mut vec![0; len], &mut vec![0; len]);
    let times = against_both(
        || voltunnis::build(sheet, one),
        || reference::build(sheet, two),
        || fast::build(sheet, three),
    );
    table.row(name, "vt_build", size, times);
}

fn written_rows(table: &mut Table, Case { name, sheet, .. }: &Case, graph: &[u8], size: &str) {
    let (one, two) = (&mut vec![0; graph.len()], &mut vec![0; graph.len()]);
    let times = against_both(
        || voltunnis::check_graph(sheet, graph),
        || reference::check_graph(sheet, graph),
        || fast::check_graph(sheet, graph),
    );
    table.row(name, "vt_check_graph", size, times);
    let times = against(|| voltunnis::rewrite(sheet, graph, one), || reference::rewrite(sheet, graph, two));
    table.row(name, "vt_rewrite", size, times);
}

fn walk_row(table: &mut Table, Case { name, sheet, piece }: &Case, graph: &[u8], size: &str) {
    let walked = reference::walk(sheet, graph, piece);
    let times = against_both(
        || voltunnis::walk(sheet, graph, piece),
        || reference::walk(sheet, graph, piece),
        || fast::walk(sheet, graph, piece),
    );
    let edges = match walked {
        Ok(answer) if answer.walk.edges == 1 => "1 edge".into(),
        Ok(answer) => format!("{} edges", answer.walk.edges),
        Err(_) => outcome(&walked),
    };
    table.row(name, "vt_walk", &format!("{size}, {edges}"), times);
}

/// How many pieces a run has beyond its first.
const MORE: usize = 1000;

/// The row of one piece again and again.
fn walks_row(table: &mut Table, Case { name, sheet, piece }: &Case, graph: &[u8]) {
    each_walk(table, name, sheet, graph, &vec![piece.clone(); MORE + 1]);
}

/// The row of a thousand spans at random and one more, over nested ranges.
pub fn spans_row(table: &mut Table) {
    let sheet = known::nested_1(32);
    let graph = reference::own_graph(&sheet).expect("a graph");
    let mut random = Random::new(4);
    let mut span = || {
        let (one, other) = (random.below(1010) as u16, random.below(1010) as u16);
        piece_bytes(&[Term::Span(one.min(other), one.max(other))])
    };
    let pieces: Vec<Vec<u8>> = (0..=MORE).map(|_| span()).collect();
    each_walk(table, "nested ranges, random spans", &sheet, &graph, &pieces);
}

/// One walk inside `vt_walk_all`: what a piece more takes, sheet and graph checked.
fn each_walk(table: &mut Table, name: &'static str, sheet: &[u8], graph: &[u8], pieces: &[Vec<u8>]) {
    let (one, two, three) =
        (&mut vec![0; 16 * (MORE + 1)], &mut vec![0; 16 * (MORE + 1)], &mut vec![0; 16 * (MORE + 1)]);
    let mut times = |count: usize| {
        let pieces = &pieces[..count].concat()[..];
        against_both(
            || voltunnis::walk_all(sheet, graph, pieces, one),
            || reference::walk_all(sheet, graph, pieces, two),
            || fast::walk_all(sheet, graph, pieces, three),
        )
    };
    let (few, many) = (times(1), times(MORE + 1));
    let each = |few: f64, many: f64| (many - few) / MORE as f64;
    let fastest = few.fastest.zip(many.fastest).map(|(few, many)| each(few, many));
    let (library, reference) = (each(few.library, many.library), each(few.reference, many.reference));
    let size = format!("one of {} pieces", MORE + 1);
    table.row(name, "one walk inside vt_walk_all", &size, Times { library, reference, fastest });
}
