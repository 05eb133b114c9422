//! What a walk has to say about readings that will never come: which tests they contradict.

use crate::json::Json;
use crate::notation::{places, Piece};
use crate::retrace::{Step, Way};
use crate::sheet_tests::Test;
use crate::truth::{is_never, nevers};

/// A piece whose readings that will never come are explained.
pub struct Nevers<'a> {
    pub piece: &'a Piece,
}

impl Nevers<'_> {
    /// What is said beside a test that a reading contradicts as it will never come.
    pub fn beside(&self, test: Test) -> &'static str {
        let places = nevers(self.piece, test);
        match places.iter().any(|place| is_never(self.piece, *place)) {
            true => ": never comes",
            false if places.is_empty() => "",
            false => ": a part never comes",
        }
    }

    /// The places of a test at which a reading that will never come contradicts it, for programs.
    pub fn json(&self, test: Test) -> Json {
        Json::List(
            nevers(self.piece, test).into_iter().map(|place| Json::text(places::words(place))).collect(),
        )
    }

    /// A line for each node whose test is contradicted as a reading will never come.
    pub fn met(&self, way: &Way) -> String {
        let line = |step: &Step| {
            let place = *nevers(self.piece, step.asks).first()?;
            let words = places::words(place);
            let (part, so) = match step.asks {
                Test::Place(_) => ("", "so no rule with a test there is left".into()),
                Test::Pair(..) if is_never(self.piece, place) => ("", "so it differs from every term".into()),
                Test::Pair(..) => ("a part of ", format!("so {words} differs from every term")),
            };
            Some(format!("node {}: {part}{words} never comes, {so}\n", step.node))
        };
        way.steps.iter().filter_map(line).collect()
    }
}
