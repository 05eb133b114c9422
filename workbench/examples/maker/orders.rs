//! Mistakes over reading orders (document 02, request 1) and track positions (request 14).

use super::{call as right, size, Said};
use std::cmp::Reverse;
use std::collections::BinaryHeap;
use voltunnis_tests::reference::places::{argument, child, depth, parent, DEEPEST, PLACES};
use voltunnis_tests::reference::sheet::Sheet;
use voltunnis_tests::reference::{self, check_order};
use voltunnis_tests::results::Written;

/// The graph in ascending order, where the table is accepted.
fn lowest(sheet: &[u8], order: &[u8], buffer: &mut [u8]) -> Said {
    Sheet::read(sheet)?;
    check_order(order)?;
    reference::build(sheet, buffer).map(size)
}

/// Question 30 asked of each place before 29 is asked of the next.
fn hurried(order: &[u8]) -> Result<(), u8> {
    let asked = check_order(order);
    let places: Vec<&[u8]> = order.chunks(2).collect();
    let number = |at: usize| u16::from_be_bytes([places[at][0], places[at][1]]);
    let good = |at: &usize| number(*at) < 680 && !places[..*at].contains(&places[*at]);
    let late =
        |at: usize| parent(number(at)).is_some_and(|above| !places[..at].contains(&&above.to_be_bytes()[..]));
    match asked {
        Err(29) if (0..places.len()).take_while(good).any(late) => Err(30),
        asked => asked,
    }
}

/// The table of these places where a list of positions is taken.
fn laid(positions: &[u8], buffer: &mut [u8], places: impl Fn(&[u16]) -> Vec<u16>) -> Said {
    let Written { bytes } = reference::order(positions, buffer)?;
    let wide: Vec<u16> = positions.chunks_exact(2).map(|two| u16::from_be_bytes([two[0], two[1]])).collect();
    for (entry, place) in buffer.chunks_exact_mut(2).zip(places(&wide)) {
        entry.copy_from_slice(&place.to_be_bytes());
    }
    Ok(bytes.to_string())
}

/// All places by position.
fn drifted(positions: &[u16]) -> Vec<u16> {
    let mut places: Vec<u16> = (0..PLACES).collect();
    places.sort_by_key(|place| positions[usize::from(*place)]);
    places
}

/// Of those that may come next always one with the smallest position, the highest of them.
fn highest(positions: &[u16]) -> Vec<u16> {
    let with_position = |place: u16| (Reverse(positions[usize::from(place)]), place);
    let mut open: BinaryHeap<_> = (1..=8).map(argument).map(with_position).collect();
    let mut down = Vec::new();
    while let Some((_, place)) = open.pop() {
        down.push(place);
        let depth = depth(place);
        if depth < DEEPEST {
            open.extend((1..=4).map(|j| child(place, depth, j)).map(with_position));
        }
    }
    down
}

/// A call with one mistake.
pub fn call(trap: &str, name: &str, arguments: &mut [Vec<u8>]) -> Option<Said> {
    match (trap, name, &mut *arguments) {
        ("lowest", "build_ordered", [sheet, order, buffer]) => Some(lowest(sheet, order, buffer)),
        ("hurried", "check_order", [order]) => Some(hurried(order).map(|()| String::new())),
        ("drift", "order", [positions, buffer]) => Some(laid(positions, buffer, drifted)),
        ("higher", "order", [positions, buffer]) => Some(laid(positions, buffer, highest)),
        _ => right(name, arguments),
    }
}
