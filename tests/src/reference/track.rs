//! Reading orders from track positions (document 02, request 14), by a heap of the places that may come next.

use super::places::{argument, child, depth, DEEPEST, PLACES};
use crate::results::{Refusal, Written};
use std::cmp::Reverse;
use std::collections::BinaryHeap;

/// The bytes of a list of positions, and those of a table.
pub const BYTES: usize = 2 * PLACES as usize;

/// All places in the order that positions, one for each, lay down: of those that may come next always the one
/// with the smallest position, on equal positions the lower place.
pub fn places(positions: &[u16]) -> Vec<u16> {
    let with_position = |place: u16| Reverse((positions[usize::from(place)], place));
    let mut open: BinaryHeap<_> = (1..=8).map(argument).map(with_position).collect();
    let mut down = Vec::with_capacity(PLACES.into());
    while let Some(Reverse((_, place))) = open.pop() {
        down.push(place);
        let depth = depth(place);
        if depth < DEEPEST {
            open.extend((1..=4).map(|j| child(place, depth, j)).map(with_position));
        }
    }
    down
}

/// Writes the reading order of a list of track positions: questions 37 and 38.
pub fn order(positions: &[u8], buffer: &mut [u8]) -> Result<Written, Refusal> {
    if positions.len() != BYTES {
        return Err(37);
    }
    let table = buffer.get_mut(..BYTES).ok_or(38)?;
    let positions: Vec<u16> =
        positions.chunks_exact(2).map(|two| u16::from_be_bytes([two[0], two[1]])).collect();
    for (entry, place) in table.chunks_exact_mut(2).zip(places(&positions)) {
        entry.copy_from_slice(&place.to_be_bytes());
    }
    Ok(Written { bytes: BYTES as u32 })
}
