//! A stream of calls from a seed: good, hostile and damaged sheets, pieces and graphs, reading orders, track
//! positions, and buffers of all lengths. The same seed gives the same calls, whoever asks.

use crate::asked::Asked;
use crate::calls::{Call, Name, Role};
use crate::crowded::crowded;
use crate::damage::{damaged, noise};
use crate::graphs::graph;
use crate::hostile::{hostile_piece, hostile_sheet};
use crate::known;
use crate::nodes::GraphNodes;
use crate::orders::{reversed, some_table, table, PLACES};
use crate::pieces::piece;
use crate::random::Random;
use crate::sheets::{sheet, small_sheet, MOST_RULES};
use crate::stock::Stock;
use crate::tracks::{list, numbered, some_list};
use crate::trees::{piece_bytes, SheetTree};
use crate::variables::tidy_length;
use std::collections::VecDeque;

/// The calls, without end. It begins with document 01's example and its marked cases, with readings that will never come
/// and with numbers on gauges, whatever the seed.
///
/// `build` says the bytes of the graph that an accepted sheet has, in a reading order if one is given, none
/// if it has none. The stream asks it for graphs to walk and for the lengths of buffers.
pub struct Stream<B> {
    random: Random,
    build: B,
    next: VecDeque<Call>,
}

/// What a call may be given.
#[derive(Clone, Copy, Default)]
struct Given<'a> {
    sheet: &'a [u8],
    order: &'a [u8],
    positions: &'a [u8],
    graph: &'a [u8],
    piece: &'a [u8],
    pieces: &'a [u8],
    buffer: &'a [u8],
}

/// What the calls of one round are about.
struct Subject {
    tree: SheetTree,
    sheet: Vec<u8>,
    /// The sheet's own graph, if it has one.
    own: Option<Vec<u8>>,
}

/// A buffer of this length as it is lent: bytes by which a part that moved is seen.
pub fn lent(len: usize) -> Vec<u8> {
    (0..len).map(|at| (at * 37 % 251) as u8).collect()
}

/// The length of a buffer for so many bytes: none, one short, just enough, more, or any.
fn buffer_length(random: &mut Random, needed: usize) -> usize {
    match random.below(8) {
        0 => 0,
        1 => needed.saturating_sub(1),
        2 => random.below(needed + 1),
        3 | 4 => needed,
        5 => needed + 1,
        _ => needed + random.between(2, 40),
    }
}

/// The bytes of a result of many walks.
pub const RESULT: usize = 16;

/// The bytes of a reading order.
pub const ORDER: usize = 2 * PLACES as usize;

/// Sheets whose graphs have a known size.
const KNOWN: [fn() -> Vec<u8>; 11] = [
    known::three_alike,
    || known::coins(8),
    || known::coins(MOST_RULES.into()),
    || known::nested_1(MOST_RULES.into()),
    || known::nested_8(8),
    || known::series_4(32),
    || known::gauges_1(32),
    || known::gauges_8(8),
    known::nodes_1024,
    known::nodes_1025,
    known::eight_alike,
];

/// A sheet as a tree: of all sorts, few rules, close to 64 tests, or one of known size.
fn some_tree(random: &mut Random) -> SheetTree {
    match random.below(100) {
        0..=1 => {
            let bytes = random.pick(&KNOWN)();
            SheetTree::read(&bytes).expect("a known sheet").0
        }
        2..=9 => crowded(random),
        10..=39 => {
            let stock = Stock::random(random);
            small_sheet(random, stock)
        }
        _ => sheet(random),
    }
}

impl<B: Fn(&[u8], Option<&[u8]>) -> Option<Vec<u8>>> Stream<B> {
    /// The stream of this seed.
    pub fn new(seed: u64, build: B) -> Stream<B> {
        let mut stream = Stream { random: Random::new(seed), build, next: VecDeque::new() };
        for (sheet, pieces) in
            [(known::example(), known::example_pieces()), (known::marked(), known::marked_pieces())]
        {
            stream.opening(&sheet, &pieces);
            stream.backwards(&sheet, &pieces);
        }
        // Two such readings under one variable, one deep beside an unknown, or one value on two gauges under one variable
        // are rare among random pieces.
        for (sheet, pieces) in known::nevers().into_iter().chain(known::gauges()) {
            stream.opening(&sheet, &pieces);
        }
        for [sheet, graph, piece] in &known::below_nevers() {
            stream.call(Name::Walk, Given { sheet, graph, piece, ..Given::default() });
        }
        stream
    }

    /// The calls on a known sheet and its pieces.
    fn opening(&mut self, sheet: &[u8], pieces: &[Vec<u8>]) {
        let graph = &(self.build)(sheet, None).unwrap_or_default()[..];
        let buffer = &lent(graph.len() + 3)[..];
        for name in [Name::CheckSheet, Name::Build, Name::CheckGraph, Name::Rewrite, Name::Tidy] {
            self.call(name, Given { sheet, graph, buffer, ..Given::default() });
        }
        for piece in pieces {
            for name in [Name::CheckPiece, Name::Plain, Name::Walk] {
                self.call(name, Given { sheet, graph, piece, ..Given::default() });
            }
        }
        let (all, buffer) = (&pieces.concat()[..], &lent(RESULT * pieces.len() + 3)[..]);
        self.call(Name::WalkAll, Given { sheet, graph, pieces: all, buffer, ..Given::default() });
    }

    /// The same with the sheet's arguments read backwards.
    fn backwards(&mut self, sheet: &[u8], pieces: &[Vec<u8>]) {
        let (positions, buffer) = (&list(&numbered(&reversed()))[..], &lent(ORDER + 3)[..]);
        self.call(Name::Order, Given { positions, buffer, ..Given::default() });
        let order = &table(&reversed())[..];
        let graph = &(self.build)(sheet, Some(order)).unwrap_or_default()[..];
        let buffer = &lent(graph.len() + 3)[..];
        for name in [Name::CheckOrder, Name::BuildOrdered, Name::CheckGraph] {
            self.call(name, Given { sheet, order, graph, buffer, ..Given::default() });
        }
        for piece in pieces {
            self.call(Name::Walk, Given { sheet, graph, piece, ..Given::default() });
        }
    }

    /// Puts a call in line, with those of the arguments that it takes.
    fn call(&mut self, name: Name, given: Given) {
        self.next.push_back(Call::new(name, |role| match role {
            Role::Sheet => given.sheet.to_vec(),
            Role::Order => given.order.to_vec(),
            Role::Positions => given.positions.to_vec(),
            Role::Graph => given.graph.to_vec(),
            Role::Piece => given.piece.to_vec(),
            Role::Pieces => given.pieces.to_vec(),
            Role::Buffer => given.buffer.to_vec(),
        }));
    }

    /// A sheet: mostly good, else hostile, damaged or noise.
    fn subject(&mut self) -> Subject {
        let random = &mut self.random;
        let tree = some_tree(random);
        let sheet = match random.below(20) {
            0..=2 => hostile_sheet(random, &tree),
            3 => damaged(random, &tree.bytes()),
            4 if random.percent(30) => noise(random, 0x10),
            _ => tree.bytes(),
        };
        let own = (self.build)(&sheet, None);
        Subject { tree, sheet, own }
    }

    /// A piece for the sheet: mostly good, else hostile, damaged or noise.
    fn piece(&mut self, tree: &SheetTree) -> Vec<u8> {
        let random = &mut self.random;
        let terms = piece(random, tree, Stock::FULL);
        match random.below(20) {
            0 => hostile_piece(random, &terms),
            1 => damaged(random, &piece_bytes(&terms)),
            2 if random.percent(30) => noise(random, 0x11),
            _ => piece_bytes(&terms),
        }
    }

    /// A graph for the sheet: its own, another maker's, mangled or damaged.
    fn graph(&mut self, Subject { tree, own, .. }: &Subject) -> Vec<u8> {
        let own = || own.as_deref().and_then(GraphNodes::read).map(|(graph, _)| graph.nodes);
        graph(&mut self.random, &Asked::of(tree), own)
    }

    /// Puts a writer's call in line, with a buffer for about so many bytes.
    fn write(&mut self, name: Name, given: Given, needed: usize) {
        let buffer = &lent(buffer_length(&mut self.random, needed))[..];
        self.call(name, Given { buffer, ..given });
    }

    /// The calls on track positions, and on a sheet and a reading order; the graph, if there is one.
    fn ordered(&mut self, sheet: &[u8]) -> Option<Vec<u8>> {
        if self.random.percent(30) {
            let positions = &some_list(&mut self.random)[..];
            self.write(Name::Order, Given { positions, ..Given::default() }, ORDER);
        }
        let order = &some_table(&mut self.random)[..];
        let given = Given { sheet, order, ..Given::default() };
        if self.random.percent(30) {
            self.call(Name::CheckOrder, given);
        }
        let graph = (self.build)(sheet, Some(order));
        self.write(Name::BuildOrdered, given, graph.as_ref().map_or(60, Vec::len));
        graph
    }

    /// The calls on one sheet.
    fn round(&mut self) {
        let subject = self.subject();
        let Subject { tree, sheet, own } = &subject;
        let given = Given { sheet, ..Given::default() };
        self.call(Name::CheckSheet, given);
        for _ in 0..=self.random.below(2) {
            self.write(Name::Build, given, own.as_ref().map_or(60, Vec::len));
        }
        let tidy = SheetTree::read(sheet).map_or(sheet.len(), |(tree, _)| tidy_length(&tree));
        self.write(Name::Tidy, given, tidy);
        let ordered = self.ordered(sheet).filter(|_| self.random.percent(30));
        let graph = &self.graph(&subject)[..];
        self.call(Name::CheckGraph, Given { graph, ..given });
        self.write(Name::Rewrite, Given { graph, ..given }, graph.len());
        let pieces: Vec<Vec<u8>> = (0..=self.random.below(3)).map(|_| self.piece(tree)).collect();
        for piece in &pieces {
            self.call(Name::CheckPiece, Given { piece, ..given });
            self.call(Name::Plain, Given { piece, ..given });
            for graph in [Some(graph), own.as_deref(), ordered.as_deref()].into_iter().flatten() {
                self.call(Name::Walk, Given { graph, piece, ..given });
            }
        }
        let graph = own.as_deref().filter(|_| self.random.percent(50)).unwrap_or(graph);
        let given = Given { graph, pieces: &pieces.concat(), ..given };
        self.write(Name::WalkAll, given, RESULT * pieces.len());
    }
}

impl<B: Fn(&[u8], Option<&[u8]>) -> Option<Vec<u8>>> Iterator for Stream<B> {
    type Item = Call;

    fn next(&mut self) -> Option<Call> {
        while self.next.is_empty() {
            self.round();
        }
        self.next.pop_front()
    }
}
