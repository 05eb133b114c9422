//! What the calls hand back: the types of the crate `voltunnis`, with a refusal as its number.

pub use voltunnis::window::WordCounts;
pub use voltunnis::{Answer, Built, GraphSize, PieceSize, Plain, Run, SheetSize, Walk, Word, Written};

/// A refusal's number: that of the first question of document 01 that got a no.
pub type Refusal = u8;

/// A piece's result in a run: its 16 bytes in digits.
pub fn in_hex(result: Result<Answer, Refusal>) -> String {
    match result {
        Ok(Answer { walk, wait }) => {
            format!("00{:02x}{:02x}{:02x}00000000{wait:016x}", walk.word as u8, walk.rule, walk.edges)
        }
        Err(refusal) => format!("{refusal:02x}{:030}", 0),
    }
}
