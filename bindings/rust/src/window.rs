//! Windows: the counts of the last 1,000 answers, in memory that the caller keeps.
//!
//! ```
//! use voltunnis::window::{commits, feed, words, Window, CELLS};
//!
//! let mut window: Window = [0; CELLS];
//! feed(&mut window, 1, 2)?; // commit 2
//! feed(&mut window, 3, 0)?; // suspend
//! assert_eq!(words(&window).commit, 1);
//! assert_eq!(commits(&window, 2), 1);
//! # Ok::<(), voltunnis::Refusal>(())
//! ```

use crate::packed::unpack;
use crate::refusal::Refusal;

/// How many cells a window has.
pub const CELLS: usize = 1070;

/// A window; all zero is a fresh one.
pub type Window = [u16; CELLS];

/// How many of the answers fed to a window have each word.
#[derive(Clone, Copy, Debug, PartialEq, Eq)]
pub struct WordCounts {
    pub commit: u16,
    pub execute: u16,
    pub suspend: u16,
    pub fail: u16,
}

impl WordCounts {
    /// The counts that a call packed in this number, 16 bits each, commit lowest.
    pub fn from_bits(bits: u64) -> Self {
        let [a, b, c, d, e, f, g, h] = bits.to_le_bytes();
        let count = u16::from_le_bytes;
        WordCounts {
            commit: count([a, b]),
            execute: count([c, d]),
            suspend: count([e, f]),
            fail: count([g, h]),
        }
    }

    /// The four counts together.
    pub fn sum(&self) -> usize {
        [self.commit, self.execute, self.suspend, self.fail].into_iter().map(usize::from).sum()
    }
}

extern "C" {
    fn vt_window_fresh(window: *mut u16) -> u64;
    fn vt_window_feed(window: *mut u16, word: u8, rule: u8) -> u64;
    fn vt_window_words(window: *const u16) -> u64;
    fn vt_window_commits(window: *const u16, rule: u8) -> u64;
}

/// Makes a window fresh.
///
/// ```
/// use voltunnis::window::{fresh, words, CELLS};
///
/// let mut window = [7; CELLS];
/// fresh(&mut window);
/// assert_eq!(words(&window).sum(), 0);
/// ```
#[inline]
pub fn fresh(window: &mut Window) {
    // SAFETY: the library writes the window's cells and nothing else.
    let result = unsafe { vt_window_fresh(window.as_mut_ptr()) };
    assert_eq!(result, 0, "a window is made fresh without a refusal");
}

/// Feeds an answer, the number of its word and its rule: question 36. A refused one leaves the window
/// as it was.
///
/// ```
/// use voltunnis::window::{feed, CELLS};
///
/// let refusal = feed(&mut [0; CELLS], 1, 65).unwrap_err();
/// assert_eq!(refusal.number(), 36);
/// ```
#[inline]
pub fn feed(window: &mut Window, word: u8, rule: u8) -> Result<(), Refusal> {
    // SAFETY: the library reads and writes the window's cells and nothing else.
    unpack(unsafe { vt_window_feed(window.as_mut_ptr(), word, rule) })
}

/// The counts of the four words.
///
/// ```
/// use voltunnis::window::{feed, words, CELLS};
///
/// let mut window = [0; CELLS];
/// for _ in 0..1500 {
///     feed(&mut window, 4, 0)?;
/// }
/// assert_eq!(words(&window).fail, 1000);
/// # Ok::<(), voltunnis::Refusal>(())
/// ```
#[inline]
pub fn words(window: &Window) -> WordCounts {
    // SAFETY: the library reads the window's cells and nothing else.
    WordCounts::from_bits(unsafe { vt_window_words(window.as_ptr()) })
}

/// The commits of a rule, 0 where it is not 1 to 64.
///
/// ```
/// use voltunnis::window::{commits, feed, CELLS};
///
/// let mut window = [0; CELLS];
/// feed(&mut window, 2, 5)?; // execute 5 is no commit
/// assert_eq!(commits(&window, 5), 0);
/// # Ok::<(), voltunnis::Refusal>(())
/// ```
#[inline]
pub fn commits(window: &Window, rule: u8) -> u16 {
    // SAFETY: the library reads the window's cells and nothing else.
    let count = unsafe { vt_window_commits(window.as_ptr(), rule) };
    debug_assert!(count <= u64::from(u16::MAX), "a count has 16 bits");
    count as u16
}
