//! Reading orders made simpler: ascending as far as can be, place 0 for what is no place's or stands twice.

use super::{lower, parts, sheets};
use crate::asked::SUBTREE;
use crate::orders::{way, PLACES};
use std::collections::BTreeSet;
use std::ops::Range;

/// A way to make an order simpler.
#[derive(Clone, Debug)]
pub enum Step {
    /// All places ascending, but for this one and those above it, which come first.
    First(u16),
    /// These entries ascending.
    Sorted(Range<usize>),
    /// Place 0 in the stead of these entries.
    Zeros(Range<usize>),
    /// The entry at one index put before that at another.
    Earlier(usize, usize),
}

/// The places of a table that is as long as an order, whatever they are.
pub fn read(table: &[u8]) -> Option<Vec<u16>> {
    let places = || table.chunks_exact(2).map(|two| u16::from_be_bytes([two[0], two[1]])).collect();
    (table.len() == 2 * usize::from(PLACES)).then(places)
}

/// All steps to try, those that change most first; these places are tested.
pub fn steps<'a>(places: &'a [u16], tested: &[u16]) -> impl Iterator<Item = Step> + 'a {
    let first: Vec<Step> = tested.iter().copied().map(Step::First).collect();
    let unsorted = |part: &Range<usize>| !places[part.clone()].is_sorted();
    let sorted = parts(places.len()).filter(unsorted).map(Step::Sorted);
    let few =
        places.iter().collect::<BTreeSet<_>>().len() < places.len() || places.iter().any(|p| *p >= PLACES);
    let zeros = parts(if few { places.len() } else { 0 }).map(Step::Zeros);
    let before = move |at: usize| {
        let lower = lower(at as u16).map(usize::from);
        lower.filter(move |to| places[*to] > places[at]).map(move |to| Step::Earlier(at, to))
    };
    first.into_iter().chain(sorted).chain(zeros).chain((0..places.len()).flat_map(before))
}

/// The places after a step, if it can be made.
pub fn after(places: &[u16], step: &Step) -> Option<Vec<u16>> {
    let mut places = places.to_vec();
    match step {
        Step::First(place) => {
            places = way(*place);
            places.extend((0..PLACES).filter(|other| !way(*place).contains(other)));
        }
        Step::Sorted(part) => places.get_mut(part.clone())?.sort_unstable(),
        Step::Zeros(part) => places.get_mut(part.clone())?.fill(0),
        Step::Earlier(at, to) => places.get_mut(*to..=*at)?.rotate_right(1),
    }
    Some(places)
}

/// The order that follows a sheet through a step: where an argument is left out, the later ones move up in its
/// stead, and it becomes the last.
pub fn following(places: &[u16], step: &sheets::Step) -> Vec<u16> {
    let sheets::Step::Argument(gone) = step else { return places.to_vec() };
    let first = SUBTREE[0] * *gone as u16;
    let moved = |place: &u16| match place.checked_sub(first) {
        Some(below) if below < SUBTREE[0] => PLACES - SUBTREE[0] + below,
        Some(_) if *place < PLACES => place - SUBTREE[0],
        _ => *place,
    };
    places.iter().map(moved).collect()
}
