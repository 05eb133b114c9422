//! A call made smaller for as long as it shows what it has to show: fewer rules, arguments and nodes,
//! simpler patterns and terms, smaller ids, numbers and gauges, orders closer to ascending, fewer and lower positions,
//! fewer bytes.
//!
//! Sheets, pieces and graphs that can be read are made smaller as trees; a sheet takes its own graph, the
//! pieces' arguments, the order and the buffer's length along. Whatever can't be read is made smaller byte by byte.

mod bytes;
mod case;
mod graphs;
mod lists;
mod orders;
mod pieces;
mod sheets;
mod tiny;
mod tracks;

use crate::calls::{Call, Name, Role};
use case::Case;
pub use lists::fewest;
use std::ops::Range;

/// One way to make a call smaller.
#[derive(Clone, Debug)]
enum Step {
    /// Another call with some of the arguments.
    Simpler(Name),
    Sheet(sheets::Step),
    Piece(pieces::Step),
    /// Without these of several pieces.
    Pieces(Range<usize>),
    /// A step of one of several pieces.
    OneOf(usize, pieces::Step),
    /// Ids, numbers or gauges of sheet and piece counted from 0 in their order.
    Ranked(Value),
    Graph(graphs::Step),
    Order(orders::Step),
    Positions(tracks::Step),
    /// A buffer of this length.
    Length(usize),
    /// A buffer of zeros.
    Zeros,
    Bytes(Role, bytes::Step),
}

/// What a field holds.
#[derive(Clone, Copy, Debug, PartialEq, Eq)]
enum Value {
    Id,
    Number,
    Gauge,
}

/// Does to a field of one byte what is done to wide ones.
fn narrow(field: &mut u8, change: &mut dyn FnMut(&mut u16)) {
    let mut value = u16::from(*field);
    change(&mut value);
    *field = value as u8;
}

/// What says the bytes of an accepted sheet's own graph, in a reading order if one is given.
pub type Build<'a> = &'a dyn Fn(&[u8], Option<&[u8]>) -> Option<Vec<u8>>;

/// What is made smaller: the number of bytes in all arguments, then the call, then the bytes in their order.
fn size(call: &Call) -> (usize, Name, Vec<&[u8]>) {
    let arguments: Vec<&[u8]> = call.arguments().map(|(_, bytes)| bytes).collect();
    (arguments.iter().map(|bytes| bytes.len()).sum(), call.name(), arguments)
}

/// Parts of a list of so many items to leave out: halves first, single items last.
fn parts(count: usize) -> impl Iterator<Item = Range<usize>> {
    let halved = |length: &usize| (*length > 1).then_some(length.div_ceil(2));
    std::iter::successors((count > 0).then_some(count), halved)
        .flat_map(move |length| (0..count).step_by(length).map(move |from| from..count.min(from + length)))
}

/// Values lower than this one, the lowest first.
fn lower(value: u16) -> impl Iterator<Item = u16> {
    let lower = [0, value / 2, value - value / 8, value - value / 64, value.saturating_sub(1)];
    lower.into_iter().filter(move |lower| *lower < value)
}

/// A smallest call that still shows what `shows` looks for, which this call does, by at most so many
/// questions.
pub fn smallest(
    call: &Call,
    build: Build,
    shows: &mut dyn FnMut(&Call) -> bool,
    mut questions: usize,
) -> Call {
    let mut ask = |next: &Call, call: &Call| {
        let asked = questions > 0 && size(next) < size(call);
        questions -= usize::from(asked);
        asked && shows(next)
    };
    let mut call = call.clone();
    loop {
        if let Some(tiny) = tiny::calls(call.name(), build).into_iter().find(|tiny| ask(tiny, &call)) {
            call = tiny;
        }
        match sweep(&call, build, &mut ask) {
            Some(smaller) => call = smaller,
            None => return call,
        }
    }
}

/// The call after all steps that can be made in one go through them; none if none can.
fn sweep(call: &Call, build: Build, ask: &mut dyn FnMut(&Call, &Call) -> bool) -> Option<Call> {
    let mut case = Case::new(call.clone(), build);
    let mut steps = case.steps();
    let (mut at, mut smaller) = (0, false);
    while let Some(step) = steps.get(at) {
        at += 1;
        let Some(next) = case.after(step).filter(|next| ask(next, &case.call)) else { continue };
        let before = steps.len();
        case = Case::new(next, build);
        steps = case.steps();
        // What comes next stands where something was left out.
        at -= usize::from(steps.len() < before);
        smaller = true;
    }
    smaller.then_some(case.call)
}
