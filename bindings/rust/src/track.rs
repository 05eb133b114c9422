//! Track drawings: a list of 680 wide track positions, one for each place, and the reading order that they lay
//! down.
//!
//! Step by step, of the places not yet put down that are arguments or whose parent is down, the one with the
//! smallest position comes next, on equal positions the lower place.

use crate::packed::unpack;
use crate::{Refusal, Written, ORDER_BYTES};

extern "C" {
    fn vt_order(positions: *const u8, positions_len: usize, buffer: *mut u8, buffer_len: usize) -> u64;
}

/// Writes the reading order of a track drawing to the start of a buffer: questions 37, then 38. The bytes after it
/// stay as they are, and all do on a refusal. What is written is a reading order, whatever the positions.
///
/// ```
/// // Argument 2, at place 85, and all below it stand at 120, all other places at 900.
/// let at = |place| if (85..170).contains(&place) { 120 } else { 900 };
/// let positions: Vec<u8> = (0..680).map(at).flat_map(u16::to_be_bytes).collect();
/// let mut buffer = [0xff; 1362];
/// let written = voltunnis::order(&positions, &mut buffer)?;
/// assert_eq!(written.bytes as usize, voltunnis::ORDER_BYTES);
/// voltunnis::check_order(&buffer[..1360])?;
/// assert_eq!(buffer[..4], [0, 85, 0, 86]);
/// assert_eq!(buffer[1358..], [0x02, 0xa7, 0xff, 0xff]);
/// assert_eq!(voltunnis::order(&positions[2..], &mut buffer).unwrap_err().number(), 37);
/// assert_eq!(voltunnis::order(&positions, &mut buffer[..1359]).unwrap_err().number(), 38);
/// # Ok::<(), voltunnis::Refusal>(())
/// ```
#[inline]
pub fn order(positions: &[u8], buffer: &mut [u8]) -> Result<Written, Refusal> {
    // SAFETY: the library reads the given bytes, writes to the buffer, which does not overlap them,
    // and reaches nothing else.
    unpack(unsafe { vt_order(positions.as_ptr(), positions.len(), buffer.as_mut_ptr(), buffer.len()) })
}

/// The reading order of a track drawing, written to a buffer of its own: question 37.
///
/// ```
/// // f(X, X) and f(1, 2), in symbols, on a machine that reads the second argument first.
/// let sheet = [0x10, 2, 2, 0x24, 0, 0x24, 0, 0x21, 0, 1, 0x21, 0, 2];
/// let positions: Vec<u8> = (0..680u16).rev().flat_map(u16::to_be_bytes).collect();
/// let table = voltunnis::track_order(&positions)?;
/// let graph = voltunnis::graph_ordered(&sheet, &table)?;
/// // The root is a switch on place 85.
/// assert_eq!(graph[5..8], [0x43, 0, 85]);
/// # Ok::<(), voltunnis::Refusal>(())
/// ```
#[inline]
pub fn track_order(positions: &[u8]) -> Result<Vec<u8>, Refusal> {
    let mut table = vec![0; ORDER_BYTES];
    order(positions, &mut table)?;
    Ok(table)
}
