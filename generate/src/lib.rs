//! Sheets, pieces and graphs at random, from a seed: good ones whose rules collide, hostile and damaged
//! ones; a stream of calls made of them; and the smallest call that still shows a difference.
//!
//! - `bytes`, `records`, `trees`, `nodes`: how bytes are spelled, and sheets, pieces and graphs as trees.
//! - `random`, `stock`, `sheets`, `crowded`, `pieces`, `asked`, `variables`, `disguise`, `orders`, `tracks`,
//!   `graphs`, `hostile`, `damage`, `known`: the generators.
//! - `calls`, `stream`: the calls of the library, and a stream of them.
//! - `shrink`: a call made smaller for as long as it shows what it has to show.
//!
//! Nothing here accepts a sheet, builds a graph or gives an answer: what the generators need to know of
//! those they are told by the caller.

pub mod asked;
pub mod bytes;
pub mod calls;
pub mod crowded;
pub mod damage;
pub mod disguise;
pub mod graphs;
pub mod hostile;
pub mod known;
pub mod nodes;
pub mod orders;
pub mod pieces;
pub mod random;
pub mod records;
pub mod sheets;
pub mod shrink;
pub mod stock;
pub mod stream;
pub mod tracks;
pub mod trees;
pub mod variables;
