//! Track positions made simpler: as many places at 0 as can be, the others at few positions, and low ones.

use super::{lower, parts};
use std::collections::BTreeSet;
use std::ops::Range;

/// A way to make positions simpler.
#[derive(Clone, Debug)]
pub enum Step {
    /// The positions counted from 0 in their order.
    Ranked,
    /// These places at 0.
    Zeros(Range<usize>),
    /// A place at a lower position.
    Lower(usize, u16),
}

/// All steps to try, those that change most first.
pub fn steps(positions: &[u16]) -> impl Iterator<Item = Step> + '_ {
    let above = |part: &Range<usize>| positions[part.clone()].iter().any(|position| *position > 0);
    let zeros = parts(positions.len()).filter(above).map(Step::Zeros);
    let lower = |(place, position): (usize, &u16)| lower(*position).map(move |low| Step::Lower(place, low));
    zeros.chain([Step::Ranked]).chain(positions.iter().enumerate().flat_map(lower))
}

/// The positions after a step, if it can be made.
pub fn after(positions: &[u16], step: &Step) -> Option<Vec<u16>> {
    let mut positions = positions.to_vec();
    match step {
        Step::Ranked => {
            let used: BTreeSet<u16> = positions.iter().copied().collect();
            positions.iter_mut().for_each(|position| *position = used.range(..*position).count() as u16);
        }
        Step::Zeros(part) => positions.get_mut(part.clone())?.fill(0),
        Step::Lower(place, low) => *positions.get_mut(*place)? = *low,
    }
    Some(positions)
}
