//! The fast code: on every call the result of library and reference, and the same bytes in the buffer. On
//! the sheets, pieces and graphs that are timed, on the stream of calls, and on more sheets to build.

use std::collections::BTreeMap;
use voltunnis_tests::both::{self, enough, lend};
use voltunnis_tests::bytes::to_hex;
use voltunnis_tests::fast;
use voltunnis_tests::generate::calls::{Call, Name, Role};
use voltunnis_tests::generate::crowded::crowded;
use voltunnis_tests::generate::known;
use voltunnis_tests::generate::pieces::piece;
use voltunnis_tests::generate::random::Random;
use voltunnis_tests::generate::sheets::{sheet, MOST_RULES};
use voltunnis_tests::generate::stock::Stock;
use voltunnis_tests::generate::stream::Stream;
use voltunnis_tests::generate::trees::{piece_bytes, Pattern, SheetTree};
use voltunnis_tests::reference::{graph_in, own_graph};
use voltunnis_tests::results::{Built, Refusal, Written};

#[path = "../src/bin/bench/cases.rs"]
#[allow(dead_code)]
mod cases;

/// How often each call was made, each refusal's number given, 0 for accepted, and each answer's word.
#[derive(Default)]
struct Count {
    calls: BTreeMap<&'static str, usize>,
    refusals: BTreeMap<Refusal, usize>,
    words: BTreeMap<&'static str, usize>,
}

impl Count {
    fn add<T: Copy>(&mut self, call: Name, result: Result<T, Refusal>) -> Option<T> {
        *self.calls.entry(call.text()).or_default() += 1;
        *self.refusals.entry(result.err().unwrap_or(0)).or_default() += 1;
        result.ok()
    }

    fn check_sheet(&mut self, sheet: &[u8]) {
        let result = both::check_sheet(sheet);
        assert_eq!(fast::check_sheet(sheet), result, "fast, both: sheet {}", to_hex(sheet));
        self.add(Name::CheckSheet, result);
    }

    fn check_piece(&mut self, piece: &[u8]) {
        let result = both::check_piece(piece);
        assert_eq!(fast::check_piece(piece), result, "fast, both: piece {}", to_hex(piece));
        self.add(Name::CheckPiece, result);
    }

    fn plain(&mut self, sheet: &[u8], piece: &[u8]) {
        let result = both::plain(sheet, piece);
        let what = || format!("fast, both: sheet {} piece {}", to_hex(sheet), to_hex(piece));
        assert_eq!(fast::plain(sheet, piece), result, "{}", what());
        if let Some(plain) = self.add(Name::Plain, result) {
            *self.words.entry(plain.word.name()).or_default() += 1;
        }
    }

    fn check_graph(&mut self, sheet: &[u8], graph: &[u8]) {
        let result = both::check_graph(sheet, graph);
        let what = || format!("fast, both: sheet {} graph {}", to_hex(sheet), to_hex(graph));
        assert_eq!(fast::check_graph(sheet, graph), result, "{}", what());
        self.add(Name::CheckGraph, result);
    }

    /// Builds to a buffer of this length.
    fn build(&mut self, sheet: &[u8], len: usize) -> Option<Built> {
        let (result, buffer) = both::build(sheet, len);
        let (given, bytes) = lend(len, |buffer| fast::build(sheet, buffer));
        let what = || format!("fast, both: sheet {} to {len} bytes", to_hex(sheet));
        assert_eq!(given, result, "{}", what());
        assert!(bytes == buffer, "other bytes in the buffer: {}", what());
        self.add(Name::Build, result)
    }

    /// Tidies to a buffer of this length.
    fn tidy(&mut self, sheet: &[u8], len: usize) -> Option<Written> {
        let (result, buffer) = both::tidy(sheet, len);
        let (given, bytes) = lend(len, |buffer| fast::tidy(sheet, buffer));
        let what = || format!("fast, both: sheet {} to {len} bytes", to_hex(sheet));
        assert_eq!(given, result, "{}", what());
        assert!(bytes == buffer, "other bytes in the buffer: {}", what());
        self.add(Name::Tidy, result)
    }

    /// Walks a graph; the answer has the wait list.
    fn walk(&mut self, sheet: &[u8], graph: &[u8], piece: &[u8]) {
        let result = both::walk(sheet, graph, piece);
        let what = || format!("sheet {} graph {} piece {}", to_hex(sheet), to_hex(graph), to_hex(piece));
        assert_eq!(fast::walk(sheet, graph, piece), result, "fast, both: {}", what());
        if let Some(answer) = self.add(Name::Walk, result) {
            *self.words.entry(answer.walk.word.name()).or_default() += 1;
        }
    }

    /// Walks many pieces with results in a buffer of this length.
    fn walk_all(&mut self, sheet: &[u8], graph: &[u8], pieces: &[u8], len: usize) {
        let (result, buffer) = both::walk_all(sheet, graph, pieces, len);
        let (given, bytes) = lend(len, |buffer| fast::walk_all(sheet, graph, pieces, buffer));
        let what = || {
            format!("fast, both: sheet {} graph {} pieces {}", to_hex(sheet), to_hex(graph), to_hex(pieces))
        };
        assert_eq!(given, result, "{}", what());
        assert!(bytes == buffer, "other bytes in the buffer: {}", what());
        self.add(Name::WalkAll, result);
    }

    /// Makes a call of the stream; the fast code has none that writes again or takes a reading order.
    fn call(&mut self, call: &Call) {
        let of = |role| call.argument(role).unwrap_or_default();
        let (sheet, piece, graph) = (of(Role::Sheet), of(Role::Piece), of(Role::Graph));
        match call.name() {
            Name::CheckSheet => self.check_sheet(sheet),
            Name::CheckPiece => self.check_piece(piece),
            Name::Plain => self.plain(sheet, piece),
            Name::CheckGraph => self.check_graph(sheet, graph),
            Name::Build => drop(self.build(sheet, of(Role::Buffer).len())),
            Name::Tidy => drop(self.tidy(sheet, of(Role::Buffer).len())),
            Name::Walk => self.walk(sheet, graph, piece),
            Name::WalkAll => self.walk_all(sheet, graph, of(Role::Pieces), of(Role::Buffer).len()),
            Name::Rewrite | Name::CheckOrder | Name::Order | Name::BuildOrdered => {}
        }
    }

    /// Makes the calls on a sheet, its graph and a piece, and writes to buffers of several lengths.
    fn all(&mut self, sheet: &[u8], piece: &[u8]) -> Option<Built> {
        self.check_sheet(sheet);
        if let Some(Written { bytes }) = self.tidy(sheet, 3 * sheet.len()) {
            self.tidy(sheet, bytes as usize - 1);
            self.tidy(sheet, bytes as usize);
        }
        self.check_piece(piece);
        self.plain(sheet, piece);
        let Some(graph) = own_graph(sheet) else { return self.build(sheet, 100) };
        self.build(sheet, graph.len() - 1);
        self.build(sheet, graph.len());
        self.check_graph(sheet, &graph);
        self.walk(sheet, &graph, piece);
        self.walk_all(sheet, &graph, &piece.repeat(3), 50);
        self.build(sheet, graph.len() + 40)
    }

    fn print(&self) {
        let Count { calls, refusals, words } = self;
        println!("{} calls: {calls:?}, by refusal {refusals:?}, {words:?}", calls.values().sum::<usize>());
    }
}

#[test]
fn the_fast_code_gives_the_same_where_it_is_timed() {
    let mut count = Count::default();
    for case in [cases::all(), cases::for_graphs(), cases::for_walks()].iter().flatten() {
        println!("{}: {:?}", case.name, count.all(&case.sheet, &case.piece));
    }
    count.print();
}

#[test]
fn the_fast_code_gives_the_same_on_the_stream_of_calls() {
    let mut count = Count::default();
    for seed in 11..=14 {
        Stream::new(seed, graph_in).take(12_000).for_each(|call| count.call(&call));
    }
    count.print();
    let not_here = [Name::Rewrite, Name::CheckOrder, Name::Order, Name::BuildOrdered];
    for name in Name::ALL.into_iter().filter(|name| !not_here.contains(name)) {
        assert!(count.calls[name.text()] >= 3_000, "{}: few calls", name.text());
    }
    for refusal in (0..=27).chain([31, 32]) {
        let calls = count.refusals.get(&refusal).copied().unwrap_or(0);
        assert!(calls >= 20, "refusal {refusal}: {calls} calls");
    }
    for word in ["commit", "execute", "suspend", "fail"] {
        assert!(count.words[word] >= 500, "{word}: {} answers", count.words[word]);
    }
}

/// A sheet whose rules want a range, on a gauge or not, or a series at random at each place: narrow, so that graphs are of
/// all sizes.
fn ranges(random: &mut Random) -> SheetTree {
    let (arity, rules) = (random.between(1, 8), random.between(1, MOST_RULES.into()));
    let width = random.pick(&[1, 2, 10, 100, 400]);
    let most = random.pick(&[2, 100, 1000, 0x10000 - width]);
    let series = random.pick(&[0, 50, 100]);
    let (gauged, gauges) = (random.pick(&[0, 0, 50, 100]), random.pick(&[2, 4, 256]));
    let mut range = || {
        let low = random.below(most);
        let (low, high) = (low as u16, (low + random.below(width)) as u16);
        if random.percent(series) {
            Pattern::Series(low, high)
        } else if random.percent(gauged) {
            Pattern::Gauged(random.below(gauges) as u8, low, high)
        } else {
            Pattern::Range(low, high)
        }
    };
    let rules = (0..rules).map(|_| (0..arity).map(|_| range()).collect()).collect();
    SheetTree { arity: arity as u8, rules }
}

#[test]
fn the_fast_code_builds_the_same_graphs() {
    let mut random = Random::new(0x6661_7374);
    let mut count = Count::default();
    let mut sizes = [0; 11];
    for round in 0..4_000 {
        let tree = match round % 4 {
            0 => crowded(&mut random),
            1 => ranges(&mut random),
            _ => sheet(&mut random),
        };
        let piece = piece_bytes(&piece(&mut random, &tree, Stock::FULL));
        if let Some(built) = count.all(&tree.bytes(), &piece) {
            sizes[built.nodes.ilog2() as usize] += 1;
        }
    }
    count.print();
    println!("graphs by nodes from 1, 2, 4, .. {sizes:?}");
    assert!(sizes[..10].iter().all(|graphs| *graphs >= 20), "few graphs of some size: {sizes:?}");
    assert!(count.refusals[&18] >= 20, "{} graphs too large", count.refusals[&18]);
}

#[test]
fn the_fast_code_stops_at_the_most_nodes() {
    let mut count = Count::default();
    let known = [
        known::nodes_1024(),
        known::nodes_1025(),
        known::eight_alike(),
        known::coins(28),
        known::coins(32),
        known::longest_32(),
    ];
    let built = known.map(|sheet| count.build(&sheet, enough(&sheet, None)).map(|built| built.nodes));
    assert_eq!(built, [Some(1024), None, Some(39), Some(960), None, Some(999)]);
}
