//! Rule sheets of coin sorters, their decision graphs and the answers for pieces: the static library
//! `voltunnis` as safe Rust functions.
//!
//! Sheets, pieces and graphs are bytes, laid out as document 01 says. Each call answers or hands back
//! a [`Refusal`]: the question that got a no. The library reads the bytes that it is given, writes to
//! the buffer that it is lent, keeps nothing and reaches nothing else.
//!
//! ```
//! // f(X, X) and f(1, 2), in symbols.
//! let sheet = [0x10, 2, 2, 0x24, 0, 0x24, 0, 0x21, 0, 1, 0x21, 0, 2];
//! // (?, 1): the first reading is not taken yet.
//! let piece = [0x11, 2, 0x30, 0x31, 0, 1];
//!
//! let graph = voltunnis::graph(&sheet)?;
//! let answer = voltunnis::answer(&sheet, &graph, &piece)?;
//! assert_eq!(answer.to_string(), "execute 1 2 0000000000000004");
//! # Ok::<(), voltunnis::Refusal>(())
//! ```
//!
//! A rule may want any symbol of a series, record 26: the ids from low to high.
//!
//! ```
//! use voltunnis::{plain, Word};
//!
//! // The tokens 1000 to 1499, or 1500 to 1999.
//! let sheet = [0x10, 1, 2, 0x26, 3, 232, 5, 219, 0x26, 5, 220, 7, 207];
//! // The token 1777.
//! let answer = plain(&sheet, &[0x11, 1, 0x31, 6, 241])?;
//! assert_eq!((answer.word, answer.rule), (Word::Commit, 2));
//! # Ok::<(), voltunnis::Refusal>(())
//! ```
//!
//! A reading may also be a span, record 34: a number known to lie between two. The gate can move before the exact
//! number comes.
//!
//! ```
//! use voltunnis::{plain, Word};
//!
//! // A diameter from 231 to 239, or from 240 to 260.
//! let sheet = [0x10, 1, 2, 0x22, 0, 231, 0, 239, 0x22, 0, 240, 1, 4];
//! // A number between 232 and 236: surely the first. One between 236 and 241: either.
//! let (narrow, wide) = ([0x11, 1, 0x34, 0, 232, 0, 236], [0x11, 1, 0x34, 0, 236, 0, 241]);
//! let answer = plain(&sheet, &narrow)?;
//! assert_eq!((answer.word, answer.rule), (Word::Commit, 1));
//! assert_eq!(plain(&sheet, &wide)?.word, Word::Suspend);
//! # Ok::<(), voltunnis::Refusal>(())
//! ```
//!
//! A reading that will never come, as of a sensor that the machine lacks, is record 35. A piece does not wait for it:
//! every test of it is contradicted, and it differs from every term, itself and unknowns included.
//!
//! ```
//! use voltunnis::{plain, Word};
//!
//! // A diameter from 231 to 239 with any metal, or metal 7.
//! let sheet = [0x10, 2, 2, 0x22, 0, 231, 0, 239, 0x20, 0x20, 0x21, 0, 7];
//! // The diameter is 235, and the metal is not read yet, or the machine has no coil.
//! let (late, never) = ([0x11, 2, 0x32, 0, 235, 0x30], [0x11, 2, 0x32, 0, 235, 0x35]);
//! assert_eq!(plain(&sheet, &late)?.word, Word::Suspend);
//! let answer = plain(&sheet, &never)?;
//! assert_eq!((answer.word, answer.rule), (Word::Commit, 1));
//! // f(X, X) on a compound that holds such a reading, beside an unknown.
//! let pair = [0x10, 2, 1, 0x24, 0, 0x24, 0];
//! assert_eq!(plain(&pair, &[0x11, 2, 0x30, 0x33, 0, 1, 1, 0x35])?.word, Word::Fail);
//! # Ok::<(), voltunnis::Refusal>(())
//! ```
//!
//! A number may be on a gauge of its own, record 36; record 32 is on gauge 0. Numbers are equal only on the same
//! gauge, and a range takes those of the gauge that it names, record 27, or of gauge 0.
//!
//! ```
//! use voltunnis::{plain, Word};
//!
//! // A thickness from 100 to 180 by the roller, gauge 1, or from 170 to 190 by the coil, gauge 0.
//! let sheet = [0x10, 1, 2, 0x27, 1, 0, 100, 0, 180, 0x22, 0, 170, 0, 190];
//! let (roller, coil) = ([0x11, 1, 0x36, 1, 0, 180], [0x11, 1, 0x32, 0, 180]);
//! assert_eq!((plain(&sheet, &roller)?.rule, plain(&sheet, &coil)?.rule), (1, 2));
//! // f(X, X) on 180 by the coil and 180 by the roller.
//! let pair = [0x10, 2, 1, 0x24, 0, 0x24, 0];
//! assert_eq!(plain(&pair, &[0x11, 2, 0x32, 0, 180, 0x36, 1, 0, 180])?.word, Word::Fail);
//! # Ok::<(), voltunnis::Refusal>(())
//! ```

mod calls;
mod grown;
mod order;
mod packed;
mod refusal;
mod results;
mod track;
mod walks;
pub mod window;

pub use calls::{
    answer, build, check_graph, check_piece, check_sheet, graph, plain, rewrite, tidy, tidy_sheet, wait, walk,
};
pub use order::{build_ordered, check_order, graph_ordered};
pub use refusal::Refusal;
pub use results::{Answer, Built, GraphSize, PieceSize, Plain, Run, SheetSize, Walk, Word, Written};
pub use track::{order, track_order};
pub use walks::{answers, results, walk_all, Answers, RESULT_BYTES};

/// The most bytes that an accepted graph has: 5, and for each of 1,024 nodes 9 and 65,535 cases of 8. One that is
/// written again has as many as it had.
pub const MOST_BYTES: usize = 536_871_941;

/// No built graph has more bytes: 5, and for each of 1,024 nodes 9 and 8,385 cases of 8. The ranges of 64 rules cut
/// the numbers of a gauge into 129 runs at most, of which there are 8,385 pairs of first and last; on several gauges
/// they have fewer.
pub const MOST_BUILT_BYTES: usize = 68_699_141;

/// The bytes of a reading order, 680 wide places, and those of as many track positions.
pub const ORDER_BYTES: usize = 1_360;

/// No tidy sheet has more bytes: 3, and 656 for each of 64 rules.
pub const MOST_TIDY_BYTES: usize = 41_987;
