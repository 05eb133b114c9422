//! Reading orders (document 02, request 1): all places in the order in which they are asked, each after its
//! parent; and tables that are none.

use crate::asked::SUBTREE;
use crate::random::Random;
use std::ops::Range;

/// How many places there are.
pub const PLACES: u16 = 680;

/// How many places an argument has at or below it, and how many arguments there are.
const ARGUMENT: u16 = SUBTREE[0];
const ARGUMENTS: u16 = PLACES / ARGUMENT;

/// The argument that a place is below, and so on down to the place.
pub fn way(place: u16) -> Vec<u16> {
    let mut offset = place % SUBTREE[0];
    let mut way = vec![place - offset];
    for subtree in &SUBTREE[1..] {
        if offset > 0 {
            offset = (offset - 1) % subtree;
            way.push(place - offset);
        }
    }
    way
}

/// The table that spells these places.
pub fn table(places: &[u16]) -> Vec<u8> {
    places.iter().flat_map(|place| place.to_be_bytes()).collect()
}

/// All places ascending.
pub fn ascending() -> Vec<u16> {
    (0..PLACES).collect()
}

/// An argument, the first being 0, and all below it.
fn whole(argument: u16) -> Range<u16> {
    ARGUMENT * argument..ARGUMENT * (argument + 1)
}

/// The last argument first, each with all below it.
pub fn reversed() -> Vec<u16> {
    (0..ARGUMENTS).rev().flat_map(whole).collect()
}

/// One argument, the first being 0, with all below it after all others.
pub fn last(argument: u16) -> Vec<u16> {
    (0..ARGUMENTS).filter(|other| *other != argument).chain([argument]).flat_map(whole).collect()
}

/// A place and its depth.
type Deep = (u16, usize);

/// All places, of those that may come next always the one at the index that is said.
fn grown(mut next: impl FnMut(&[Deep]) -> usize) -> Vec<u16> {
    let mut open: Vec<Deep> = (0..ARGUMENTS).map(|argument| (ARGUMENT * argument, 1)).collect();
    let mut places = Vec::with_capacity(PLACES.into());
    while !open.is_empty() {
        let (place, depth) = open.swap_remove(next(&open));
        places.push(place);
        if let Some(subtree) = SUBTREE.get(depth) {
            open.extend((0..4).map(|child| (place + 1 + child * subtree, depth + 1)));
        }
    }
    places
}

/// Always the deepest place that may come next, the highest of them.
pub fn deepest() -> Vec<u16> {
    grown(|open| {
        let most = open.iter().enumerate().max_by_key(|(_, (place, depth))| (*depth, *place));
        most.map_or(0, |(at, _)| at)
    })
}

/// All arguments, then all places of depth 2, of depth 3, of depth 4.
pub fn levels() -> Vec<u16> {
    let mut places: Vec<u16> = (0..ARGUMENTS).map(|argument| ARGUMENT * argument).collect();
    let mut level = places.clone();
    for subtree in &SUBTREE[1..] {
        level = level.iter().flat_map(|place| (0..4).map(move |child| place + 1 + child * subtree)).collect();
        places.extend(&level);
    }
    places
}

/// Always any place that may come next.
pub fn any(random: &mut Random) -> Vec<u16> {
    grown(|open| random.below(open.len()))
}

/// An order of one of these sorts.
pub fn order(random: &mut Random) -> Vec<u16> {
    match random.below(12) {
        0 => ascending(),
        1 => reversed(),
        2 => deepest(),
        3 => levels(),
        4 | 5 => last(random.below(ARGUMENTS.into()) as u16),
        _ => any(random),
    }
}

/// What is wrong with a table.
#[derive(Clone, Copy, Debug, PartialEq, Eq)]
pub enum Fault {
    Length,
    OutOfRange,
    Twice,
    BeforeParent,
    OutOfRangeAndBeforeParent,
    TwiceAndBeforeParent,
}

impl Fault {
    pub const ALL: [Fault; 6] = [
        Fault::Length,
        Fault::OutOfRange,
        Fault::Twice,
        Fault::BeforeParent,
        Fault::OutOfRangeAndBeforeParent,
        Fault::TwiceAndBeforeParent,
    ];

    /// The table of these places, which are an order, with this fault.
    pub fn put(self, random: &mut Random, places: &[u16]) -> Vec<u8> {
        let mut places = places.to_vec();
        let (at, step) = (random.below(places.len()), random.between(1, places.len() - 1));
        let other = places[(at + step) % places.len()];
        match self {
            Fault::Length => return resized(random, table(&places)),
            Fault::OutOfRange => places[at] = beyond(random),
            Fault::Twice => places[at] = other,
            Fault::BeforeParent => early(random, &mut places),
            Fault::OutOfRangeAndBeforeParent => {
                early(random, &mut places);
                places[at.max(1)] = beyond(random);
            }
            Fault::TwiceAndBeforeParent => {
                early(random, &mut places);
                let first = places[0];
                places[at.max(1)] = first;
            }
        }
        table(&places)
    }
}

/// Bytes of another length than 1,360: the first of these, or all and zeros.
pub fn resized(random: &mut Random, mut bytes: Vec<u8>) -> Vec<u8> {
    bytes.resize(random.pick(&[0, 1, 2, 1358, 1359, 1361, 1362, 2720]), 0);
    bytes
}

/// A number that is no place's.
fn beyond(random: &mut Random) -> u16 {
    random.pick(&[PLACES, PLACES + 1, 0x0300, 0x8000, 0xffff])
}

/// Puts a place that is no argument before all others.
fn early(random: &mut Random, places: &mut Vec<u16>) {
    let below = ARGUMENT * random.below(ARGUMENTS.into()) as u16 + random.between(1, 84) as u16;
    places.retain(|place| *place != below);
    places.insert(0, below);
}

/// A table: mostly an order, else one with a fault, or an order with two entries exchanged.
pub fn some_table(random: &mut Random) -> Vec<u8> {
    let mut places = order(random);
    match random.below(20) {
        0..=3 => random.pick(&Fault::ALL).put(random, &places),
        4 => {
            let (one, other) = (random.below(places.len()), random.below(places.len()));
            places.swap(one, other);
            table(&places)
        }
        _ => table(&places),
    }
}
