//! Track drawings from text.

use super::names::Names;
use super::parse_place::one_of_all;
use super::parser::Parser;
use super::places;
use super::span::Fault;
use super::track::{Spot, Track};

/// The drawing that a text spells.
///
/// ```
/// use voltunnis_workbench::notation::parse_track;
///
/// let track = parse_track("track\nargument 2 at 120\nargument 2, part 1 at 310\n").unwrap();
/// let positions = track.positions();
/// assert_eq!((positions[0], positions[85], positions[86], positions[107]), (65535, 120, 310, 120));
/// ```
pub fn parse_track(text: &str) -> Result<Track, Fault> {
    let mut track = Track { lines: Vec::new() };
    let mut parser = Parser::new(text, &Names::default())?;
    let help =
        "begin with `track`, then write places with their positions, one a line, as `argument 2 at 120`";
    parser.headed("track", "a track's head", help, |parser| line(parser, &mut track))?;
    Ok(track)
}

/// One line: a place and its position.
fn line(parser: &mut Parser, track: &mut Track) -> Result<(), Fault> {
    let (place, at) = one_of_all(parser, "`argument` or `place`")?;
    if !parser.accept_word("at") {
        return Err(parser.expected("`at` and a position"));
    }
    let position = parser.number("a position")?;
    if let Some((_, known)) = track.lines.iter().find(|(spot, _)| spot.place == place) {
        return Err(parser.twice(at, &places::words(place), *known));
    }
    track.lines.push((Spot { place, position }, at));
    Ok(())
}
