//! Request 13: the parents of all places as text.

use super::places::{parent, PLACES};

/// A line for each place: the place, a space and its parent, 680 for an argument.
pub fn parent_lines() -> String {
    (0..PLACES).map(|place| format!("{place} {}\n", parent(place).unwrap_or(PLACES))).collect()
}
