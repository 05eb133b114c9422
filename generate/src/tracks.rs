//! Track positions (document 02, request 14): one for each place, of sorts that lead an order astray; and
//! lists of other lengths.

use crate::orders::{order, resized, table, way, PLACES};
use crate::random::Random;

/// A sort of lists.
#[derive(Clone, Copy, Debug, PartialEq, Eq)]
pub enum Sort {
    /// Any positions.
    Wide,
    /// A few positions, so that many places have the same.
    Few,
    /// One position for all.
    Equal,
    /// All places that have others below them before all that have none.
    InnerFirst,
    /// All places that have none below them before all others.
    LeavesFirst,
    /// The higher place first.
    Reversed,
    /// Each place after all below it.
    ParentsLast,
    /// Each place at its index in a reading order.
    Numbered,
}

/// The list that spells these positions.
pub fn list(positions: &[u16]) -> Vec<u8> {
    table(positions)
}

/// All places, each at its index in a reading order.
pub fn numbered(places: &[u16]) -> Vec<u16> {
    let mut positions = vec![0; places.len()];
    for (at, place) in places.iter().enumerate() {
        positions[usize::from(*place)] = at as u16;
    }
    positions
}

/// Whether a place has none below it.
fn is_leaf(place: u16) -> bool {
    way(place).len() == 4
}

/// Positions below 32,768 for the places of which this holds, others for the rest.
fn first(random: &mut Random, holds: impl Fn(u16) -> bool) -> Vec<u16> {
    (0..PLACES).map(|place| random.below(0x8000) as u16 + if holds(place) { 0 } else { 0x8000 }).collect()
}

/// Each place after all below it, by any step.
fn parents_last(random: &mut Random) -> Vec<u16> {
    let mut positions: Vec<u16> = (0..PLACES).map(|_| random.below(0x1000) as u16).collect();
    for place in (0..PLACES).rev() {
        if let [.., above, _] = way(place)[..] {
            let least = positions[usize::from(place)] + random.between(1, 0x1000) as u16;
            let above = &mut positions[usize::from(above)];
            *above = least.max(*above);
        }
    }
    positions
}

impl Sort {
    pub const ALL: [Sort; 8] = [
        Sort::Wide,
        Sort::Few,
        Sort::Equal,
        Sort::InnerFirst,
        Sort::LeavesFirst,
        Sort::Reversed,
        Sort::ParentsLast,
        Sort::Numbered,
    ];

    /// Positions of this sort, one for each place.
    pub fn positions(self, random: &mut Random) -> Vec<u16> {
        let mut wide = || random.word() as u16;
        match self {
            Sort::Wide => (0..PLACES).map(|_| wide()).collect(),
            Sort::Few => {
                let few: [u16; 5] = std::array::from_fn(|_| wide());
                let values = random.between(2, few.len());
                (0..PLACES).map(|_| random.pick(&few[..values])).collect()
            }
            Sort::Equal => vec![wide(); PLACES.into()],
            Sort::InnerFirst => first(random, |place| !is_leaf(place)),
            Sort::LeavesFirst => first(random, is_leaf),
            Sort::Reversed => {
                let least = random.below(0x10000 - usize::from(PLACES)) as u16;
                (0..PLACES).rev().map(|place| least + place).collect()
            }
            Sort::ParentsLast => parents_last(random),
            Sort::Numbered => numbered(&order(random)),
        }
    }
}

/// Positions of one of these sorts.
pub fn positions(random: &mut Random) -> Vec<u16> {
    random.pick(&Sort::ALL).positions(random)
}

/// A list: mostly whole, else of another length.
pub fn some_list(random: &mut Random) -> Vec<u8> {
    let list = list(&positions(random));
    match random.below(10) {
        0..=2 => resized(random, list),
        _ => list,
    }
}
