//! The calls of a window, from the crate `voltunnis`, a refusal as its number.

use crate::results::Refusal;
pub use voltunnis::window::{commits, fresh, words, Window, CELLS};

#[inline]
pub fn feed(window: &mut Window, word: u8, rule: u8) -> Result<(), Refusal> {
    voltunnis::window::feed(window, word, rule).map_err(u8::from)
}
