//! Track drawings: the lines in which people write where places stand on a track, and the list of all
//! positions that they spell.

use super::places::{self, PLACES};
use super::read::Unread;
use super::span::Span;

/// The bytes of a list: a wide position for each place.
const BYTES: usize = 2 * PLACES as usize;

/// Where an argument stands that no line names: at the end of the track.
const END: u16 = u16::MAX;

/// A line of a drawing: a place and where it stands.
#[derive(Clone, Copy, Debug, PartialEq, Eq)]
pub struct Spot {
    pub place: u16,
    pub position: u16,
}

/// A track drawing as it is written, each line with the part of the source that its place takes. A place that
/// no line names stands where its parent does.
#[derive(Clone, Debug)]
pub struct Track {
    pub lines: Vec<(Spot, Span)>,
}

/// Where a place stands that no line names, if those before it stand at these positions.
fn unnamed(place: u16, before: &[u16]) -> u16 {
    places::parent(place).map_or(END, |above| before[usize::from(above)])
}

impl Track {
    /// The positions of all places.
    pub fn positions(&self) -> Vec<u16> {
        let mut named = vec![None; PLACES.into()];
        for (spot, _) in &self.lines {
            named[usize::from(spot.place)] = Some(spot.position);
        }
        let mut positions = Vec::with_capacity(PLACES.into());
        for (place, position) in (0..PLACES).zip(named) {
            positions.push(position.unwrap_or_else(|| unnamed(place, &positions)));
        }
        positions
    }

    /// The list: the positions as wide fields.
    pub fn bytes(&self) -> Vec<u8> {
        self.positions().into_iter().flat_map(u16::to_be_bytes).collect()
    }

    /// The drawing that a list spells, along the track: a line for each place that stands elsewhere than it
    /// would unnamed.
    pub fn read(bytes: &[u8]) -> Result<Track, Unread> {
        if bytes.len() < BYTES {
            return Err(Unread {
                at: bytes.len() / 2 * 2,
                expected: "a wide position for each of 680 places",
            });
        }
        if bytes.len() > BYTES {
            return Err(Unread { at: BYTES, expected: "no further bytes" });
        }
        let positions: Vec<u16> = bytes.chunks(2).map(|two| u16::from_be_bytes([two[0], two[1]])).collect();
        let spots = (0..PLACES).zip(&positions).map(|(place, position)| Spot { place, position: *position });
        let mut named: Vec<Spot> =
            spots.filter(|spot| spot.position != unnamed(spot.place, &positions)).collect();
        named.sort_by_key(|spot| (spot.position, spot.place));
        Ok(Track { lines: named.into_iter().map(|spot| (spot, Span::default())).collect() })
    }

    /// The drawing as text.
    pub fn print(&self) -> String {
        let lines = self.lines.iter().map(|(spot, _)| (places::words(spot.place), spot.position));
        let lines: Vec<(String, u16)> = lines.collect();
        let width = lines.iter().map(|(words, _)| words.len()).max().unwrap_or(0);
        let lines = lines.iter().map(|(words, position)| format!("{words:width$} at {position}\n"));
        format!("track\n{}", lines.collect::<String>())
    }
}
