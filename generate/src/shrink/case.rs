//! A call with its arguments read as far as they can be, and what each step makes of it.

use super::{bytes, graphs, orders, parts, pieces, sheets, tracks, Build, Step, Value};
use crate::asked::Asked;
use crate::calls::{Call, Name, Role};
use crate::nodes::GraphNodes;
use crate::orders::table;
use crate::stream::{ORDER, RESULT};
use crate::tracks::list;
use crate::trees::{piece_bytes, read_piece, SheetTree, Term};
use crate::variables::tidy_length;
use std::collections::BTreeSet;

/// A call, and its arguments as trees, each with the bytes after it, where they can be read.
pub struct Case<'a> {
    pub call: Call,
    build: Build<'a>,
    sheet: Option<(SheetTree, Vec<u8>)>,
    piece: Option<(Vec<Term>, Vec<u8>)>,
    pieces: Option<pieces::Several>,
    graph: Option<(GraphNodes, Vec<u8>)>,
    order: Option<Vec<u16>>,
    positions: Option<Vec<u16>>,
    /// Whether the graph is the sheet's own.
    own: bool,
    /// How many bytes a writer needs.
    needed: Option<usize>,
}

/// So many shorter lists are tried in the stead of an order, or of positions.
const SHORTER: usize = 7;

/// A tree and the bytes after it.
fn kept<T>((tree, tail): (T, &[u8])) -> (T, Vec<u8>) {
    (tree, tail.to_vec())
}

/// How many bytes a writer needs: those of an order, of the sheet's own graph, of its tidy form, of the results of
/// pieces, or of the graph that it is given.
fn needed(name: Name, call: &Call, build: Build) -> Option<usize> {
    if name == Name::Order {
        return Some(ORDER);
    }
    let sheet = call.argument(Role::Sheet)?;
    match name {
        Name::Build => build(sheet, None).map(|graph| graph.len()),
        Name::BuildOrdered => build(sheet, call.argument(Role::Order)).map(|graph| graph.len()),
        Name::Tidy => SheetTree::read(sheet).map(|(tree, _)| tidy_length(&tree)),
        Name::WalkAll => {
            call.argument(Role::Pieces).map(|bytes| RESULT * pieces::Several::read(bytes).results())
        }
        _ => call.argument(Role::Graph).map(<[u8]>::len),
    }
}

/// Whether the graph that a call is given is the sheet's own.
fn is_own(call: &Call, build: Build) -> bool {
    let (sheet, graph) = (call.argument(Role::Sheet), call.argument(Role::Graph));
    graph.is_some_and(|graph| sheet.and_then(|sheet| build(sheet, None)).as_deref() == Some(graph))
}

impl<'a> Case<'a> {
    pub fn new(call: Call, build: Build<'a>) -> Case<'a> {
        Case {
            sheet: call.argument(Role::Sheet).and_then(SheetTree::read).map(kept),
            piece: call.argument(Role::Piece).and_then(read_piece).map(kept),
            pieces: call.argument(Role::Pieces).map(pieces::Several::read),
            graph: call.argument(Role::Graph).and_then(GraphNodes::read).map(kept),
            order: call.argument(Role::Order).and_then(orders::read),
            positions: call.argument(Role::Positions).and_then(orders::read),
            own: is_own(&call, build),
            needed: needed(call.name(), &call, build),
            call,
            build,
        }
    }

    /// All steps to try, those that leave out most first.
    pub fn steps(&self) -> Vec<Step> {
        let mut steps: Vec<Step> = Name::ALL.into_iter().map(Step::Simpler).collect();
        if let Some((sheet, _)) = &self.sheet {
            steps.extend(sheets::steps(sheet).map(Step::Sheet));
        }
        if let Some((terms, _)) = &self.piece {
            steps.extend(pieces::steps(terms).map(Step::Piece));
        }
        if let Some(pieces::Several { pieces, .. }) = &self.pieces {
            steps.extend(parts(pieces.len()).map(Step::Pieces));
            let one = |(at, terms): (usize, &Vec<Term>)| -> Vec<Step> {
                pieces::steps(terms).map(|step| Step::OneOf(at, step)).collect()
            };
            steps.extend(pieces.iter().enumerate().flat_map(one));
        }
        steps.extend([Value::Id, Value::Number, Value::Gauge].map(Step::Ranked));
        if let Some((graph, _)) = &self.graph {
            steps.extend(graphs::steps(graph).map(Step::Graph));
        }
        if let Some(places) = &self.order {
            let tested = self.sheet.as_ref().map_or(vec![], |(sheet, _)| Asked::of(sheet).places);
            steps.extend(orders::steps(places, &tested).map(Step::Order));
        }
        if let Some(positions) = &self.positions {
            steps.extend(tracks::steps(positions).map(Step::Positions));
        }
        if let Some(buffer) = self.call.argument(Role::Buffer) {
            let shorter = parts(buffer.len()).map(|part| buffer.len() - part.len());
            steps.extend(self.needed.into_iter().chain(shorter).map(Step::Length));
            steps.push(Step::Zeros);
        }
        for (role, argument) in self.call.arguments().filter(|(role, _)| *role != Role::Buffer) {
            // An order and positions have one length: a few shorter ones tell whether it matters.
            let whole = match role {
                Role::Order => self.order.is_some(),
                Role::Positions => self.positions.is_some(),
                _ => false,
            };
            let most = if whole { SHORTER } else { usize::MAX };
            steps.extend(bytes::steps(argument).take(most).map(|step| Step::Bytes(role, step)));
        }
        steps
    }

    /// The call after a step, if the step can be made.
    pub fn after(&self, step: &Step) -> Option<Call> {
        match step {
            Step::Simpler(name) => self.simpler(*name),
            Step::Sheet(step) => self.with_sheet(sheets::after(&self.sheet.as_ref()?.0, step)?, step),
            Step::Piece(step) => {
                let (terms, tail) = self.piece.as_ref()?;
                Some(self.with_piece(&self.call, &pieces::after(terms, step)?, tail))
            }
            Step::Pieces(part) => Some(self.with_pieces(&self.pieces.as_ref()?.without(part)?)),
            Step::OneOf(at, step) => {
                let mut several = self.pieces.clone()?;
                let terms = several.pieces.get_mut(*at)?;
                *terms = pieces::after(terms, step)?;
                Some(self.with_pieces(&several))
            }
            Step::Ranked(value) => self.ranked(*value),
            Step::Graph(step) => {
                let (graph, tail) = self.graph.as_ref()?;
                let bytes = [graphs::after(graph, step)?.bytes(), tail.clone()].concat();
                Some(self.refitted(self.call.with(Role::Graph, &bytes)))
            }
            Step::Order(step) => {
                let places = orders::after(self.order.as_ref()?, step)?;
                Some(self.refitted(self.call.with(Role::Order, &table(&places))))
            }
            Step::Positions(step) => {
                let positions = tracks::after(self.positions.as_ref()?, step)?;
                Some(self.call.with(Role::Positions, &list(&positions)))
            }
            Step::Length(length) => {
                let buffer = self.call.argument(Role::Buffer)?;
                Some(self.call.with(Role::Buffer, buffer.get(..*length)?))
            }
            Step::Zeros => {
                let buffer = self.call.argument(Role::Buffer)?;
                Some(self.call.with(Role::Buffer, &vec![0; buffer.len()]))
            }
            Step::Bytes(role, step) => {
                let bytes = bytes::after(self.call.argument(*role)?, step)?;
                Some(self.call.with(*role, &bytes))
            }
        }
    }

    /// The call of this name with the arguments at hand; a buffer just large enough is made up.
    fn simpler(&self, name: Name) -> Option<Call> {
        let of = |role| self.call.argument(role).map(<[u8]>::to_vec);
        let lacks = |role: &Role| self.call.argument(*role).is_none();
        if name == self.call.name() || name.roles().iter().any(|role| *role != Role::Buffer && lacks(role)) {
            return None;
        }
        let fitting = || vec![0; needed(name, &self.call, self.build).unwrap_or(0)];
        Some(Call::new(name, |role| match role {
            Role::Buffer => of(Role::Buffer).unwrap_or_else(fitting),
            other => of(other).unwrap_or_default(),
        }))
    }

    /// A call with another piece, which these bytes follow.
    fn with_piece(&self, call: &Call, terms: &[Term], tail: &[u8]) -> Call {
        call.with(Role::Piece, &[&piece_bytes(terms), tail].concat())
    }

    /// The call with other pieces.
    fn with_pieces(&self, several: &pieces::Several) -> Call {
        self.refitted(self.call.with(Role::Pieces, &several.bytes()))
    }

    /// The call with another sheet, and with what belongs to the sheet changed alike.
    fn with_sheet(&self, sheet: SheetTree, step: &sheets::Step) -> Option<Call> {
        let (old, tail) = self.sheet.as_ref()?;
        let bytes = [sheet.bytes(), tail.clone()].concat();
        let mut call = self.call.with(Role::Sheet, &bytes);
        if let Some((terms, tail)) = &self.piece {
            call = self.with_piece(&call, &pieces::following(terms, old, step)?, tail);
        }
        if let Some(several) = &self.pieces {
            let several = several.each(|terms| pieces::following(terms, old, step))?;
            call = call.with(Role::Pieces, &several.bytes());
        }
        if let Some(places) = &self.order {
            call = call.with(Role::Order, &table(&orders::following(places, step)));
        }
        let own = if self.own { (self.build)(&bytes, None) } else { None };
        call = match (own, &self.graph, self.call.argument(Role::Graph)) {
            (Some(own), ..) => call.with(Role::Graph, &own),
            (None, Some((graph, tail)), _) => {
                let graph = graphs::following(graph, old, &sheet, step);
                call.with(Role::Graph, &[graph.bytes(), tail.clone()].concat())
            }
            (None, None, Some(graph)) => call.with(Role::Graph, &graphs::following_bytes(graph, &sheet)),
            (None, None, None) => call,
        };
        Some(self.refitted(call))
    }

    /// The call with ids, numbers or gauges of sheet and piece made small alike. Gauge 0 keeps its name, as ranges and
    /// spans may be on it without one.
    fn ranked(&self, which: Value) -> Option<Call> {
        let (mut sheet, mut piece, mut several) =
            (self.sheet.clone(), self.piece.clone(), self.pieces.clone());
        let mut each = |change: &mut dyn FnMut(&mut u16)| {
            if let Some((sheet, _)) = &mut sheet {
                sheets::each(sheet, which, change);
            }
            if let Some((terms, _)) = &mut piece {
                pieces::each(terms, which, change);
            }
            for terms in several.iter_mut().flat_map(|several| &mut several.pieces) {
                pieces::each(terms, which, change);
            }
        };
        let mut used = BTreeSet::from_iter((which == Value::Gauge).then_some(0));
        each(&mut |value| used.extend([*value]));
        each(&mut |value| *value = used.range(..*value).count() as u16);
        let mut call = self.call.clone();
        if let Some((terms, tail)) = &piece {
            call = self.with_piece(&call, terms, tail);
        }
        if let Some(several) = &several {
            call = call.with(Role::Pieces, &several.bytes());
        }
        let Some((sheet, tail)) = sheet else { return Some(call) };
        let bytes = [sheet.bytes(), tail].concat();
        call = call.with(Role::Sheet, &bytes);
        if self.own {
            call = call.with(Role::Graph, &(self.build)(&bytes, None)?);
        }
        Some(self.refitted(call))
    }

    /// The call with its buffer as much longer, or shorter, than needed as before.
    fn refitted(&self, call: Call) -> Call {
        let (Some(buffer), Some(before)) = (call.argument(Role::Buffer), self.needed) else { return call };
        let Some(needed) = needed(call.name(), &call, self.build) else { return call };
        let mut buffer = buffer.to_vec();
        buffer.resize((buffer.len() + needed).saturating_sub(before), 0);
        call.with(Role::Buffer, &buffer)
    }
}
