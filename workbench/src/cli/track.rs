//! Track drawings, from text or bytes.

use super::args::Opt;
use super::refused;
use super::source::{Content, Source};
use super::stop::Stop;
use crate::json::{Fields, Json};
use crate::notation::{count, parse_track, Track};
use std::collections::BTreeSet;

/// `--positions`
pub const POSITIONS: Opt = Opt {
    long: "positions",
    short: None,
    value: None,
    help: "as --bytes, and the bytes are track positions, which have no head",
};

/// The drawing that an input holds.
pub fn track(source: &Source) -> Result<Track, Stop> {
    match &source.content {
        Content::Text(text) => parse_track(text).map_err(|fault| refused::fault(&source.name, text, &fault)),
        Content::Bytes(bytes) => Track::read(bytes).map_err(|unread| refused::unread(&source.name, &unread)),
    }
}

/// What a drawing is: how many positions it has, the first and the last.
pub fn track_says(track: &Track) -> (String, Fields) {
    let positions = track.positions();
    let different: BTreeSet<u16> = positions.iter().copied().collect();
    let (first, last) = (different.first().unwrap_or(&0), different.last().unwrap_or(&0));
    let which = match first == last {
        true => first.to_string(),
        false => format!("{first} to {last}"),
    };
    let [places, at] = [count(positions.len(), "place"), count(different.len(), "position")];
    let json = vec![
        ("positions", Json::count(different.len())),
        ("first", Json::number(*first)),
        ("last", Json::number(*last)),
    ];
    (format!("track, {places} at {at}, {which}"), json)
}
