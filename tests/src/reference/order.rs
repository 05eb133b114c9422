//! Reading orders (document 02, request 1): a table of all places in the order in which they are asked.

use super::places::{parent, PLACES};
use super::sheet::Tests;
use crate::results::Refusal;

/// The places of a table, in the order in which they are asked: questions 28 to 30, in this order.
pub fn read(table: &[u8]) -> Result<Vec<u16>, Refusal> {
    if table.len() != 2 * usize::from(PLACES) {
        return Err(28);
    }
    let places: Vec<u16> = table.chunks_exact(2).map(|two| u16::from_be_bytes([two[0], two[1]])).collect();
    let mut seen = [false; PLACES as usize];
    for &place in &places {
        if place >= PLACES || std::mem::replace(&mut seen[usize::from(place)], true) {
            return Err(29);
        }
    }
    let mut down = [false; PLACES as usize];
    for &place in &places {
        if parent(place).is_some_and(|above| !down[usize::from(above)]) {
            return Err(30);
        }
        down[usize::from(place)] = true;
    }
    Ok(places)
}

/// The numbers of a sheet's tests in the order in which they are asked: its places in this order, then its
/// pairs.
pub fn asking(places: impl IntoIterator<Item = u16>, tests: &Tests) -> Vec<usize> {
    let tested = places.into_iter().filter_map(|place| tests.place(place));
    tested.chain(tests.places.len()..tests.count()).collect()
}

#[cfg(test)]
mod tests {
    use super::*;

    fn table(places: impl IntoIterator<Item = u16>) -> Vec<u8> {
        places.into_iter().flat_map(u16::to_be_bytes).collect()
    }

    #[test]
    fn all_places_in_turn_are_a_reading_order() {
        assert_eq!(read(&table(0..PLACES)), Ok((0..PLACES).collect()));
        assert_eq!(
            read(&table((0..8).rev().flat_map(|a| 85 * a..85 * (a + 1)))).map(|places| places[0]),
            Ok(595)
        );
    }

    #[test]
    fn questions_are_asked_in_their_order() {
        let late = || (1..2).chain(0..1).chain(2..PLACES);
        assert_eq!(read(&table(late())), Err(30));
        assert_eq!(read(&table(late().take(679).chain([680]))), Err(29));
        assert_eq!(read(&table(late().take(679).chain([1]))), Err(29));
        assert_eq!(read(&table(late().take(679))), Err(28));
        assert_eq!(read(&[]), Err(28));
    }

    #[test]
    fn tested_places_are_asked_in_the_order_and_pairs_last() {
        let tests = Tests { places: vec![0, 85, 170], pairs: vec![(0, 85), (1, 2)] };
        assert_eq!(asking(0..PLACES, &tests), [0, 1, 2, 3, 4]);
        assert_eq!(asking((0..PLACES).rev(), &tests), [2, 1, 0, 3, 4]);
    }
}
