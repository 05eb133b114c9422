//! Reading orders: a table of all 680 places, wide, in the order in which they are asked.
//!
//! The table replaces the ascending order of places. Pairs still come after all places, and tests keep
//! their numbers. A graph's bytes hold places, so no other call needs the table.

use crate::grown::grown;
use crate::packed::unpack;
use crate::{Built, Refusal};

extern "C" {
    fn vt_check_order(table: *const u8, table_len: usize) -> u64;
    fn vt_build_ordered(
        sheet: *const u8,
        sheet_len: usize,
        table: *const u8,
        table_len: usize,
        buffer: *mut u8,
        buffer_len: usize,
    ) -> u64;
}

/// Checks a reading order: questions 28 to 30.
///
/// ```
/// // All places ascending: the order in which they are asked without a table.
/// let mut table: Vec<u8> = (0..680u16).flat_map(u16::to_be_bytes).collect();
/// assert_eq!(table.len(), voltunnis::ORDER_BYTES);
/// voltunnis::check_order(&table)?;
/// // Argument 1 and its first part exchanged.
/// table[..4].copy_from_slice(&[0, 1, 0, 0]);
/// let refusal = voltunnis::check_order(&table).unwrap_err();
/// assert_eq!(refusal.to_string(), "refused 30: Does none stand before its parent?");
/// # Ok::<(), voltunnis::Refusal>(())
/// ```
#[inline]
pub fn check_order(table: &[u8]) -> Result<(), Refusal> {
    // SAFETY: the library reads the given bytes and nothing else.
    unpack(unsafe { vt_check_order(table.as_ptr(), table.len()) })
}

/// Builds the graph of a sheet in a reading order, to the start of a buffer: the sheet's questions, 28 to
/// 30, then 18 and 19. The bytes after the graph stay as they are, and all do on a refusal. The answer's
/// word and rule are the same in every order.
///
/// ```
/// # let sheet = [0x10, 2, 2, 0x24, 0, 0x24, 0, 0x21, 0, 1, 0x21, 0, 2];
/// // Argument 2, at place 85, with all below it before argument 1.
/// let places = (85..170).chain(0..85).chain(170..680);
/// let table: Vec<u8> = places.flat_map(u16::to_be_bytes).collect();
/// let mut buffer = [0; 100];
/// let built = voltunnis::build_ordered(&sheet, &table, &mut buffer)?;
/// assert_eq!((built.nodes, built.bytes), (6, 51));
/// // The root is a switch on place 85.
/// assert_eq!(buffer[5..8], [0x43, 0, 85]);
/// let short = voltunnis::build_ordered(&sheet, &table[2..], &mut buffer);
/// assert_eq!(short.unwrap_err().number(), 28);
/// # Ok::<(), voltunnis::Refusal>(())
/// ```
#[inline]
pub fn build_ordered(sheet: &[u8], table: &[u8], buffer: &mut [u8]) -> Result<Built, Refusal> {
    // SAFETY: the library reads the given bytes, writes to the buffer, which overlaps none of them,
    // and reaches nothing else.
    unpack(unsafe {
        vt_build_ordered(
            sheet.as_ptr(),
            sheet.len(),
            table.as_ptr(),
            table.len(),
            buffer.as_mut_ptr(),
            buffer.len(),
        )
    })
}

/// The graph of a sheet in a reading order, built in a buffer of its own, which is doubled from 64 KiB on while it is
/// too short: the sheet's questions, 28 to 30, then 18.
///
/// ```
/// # let sheet = [0x10, 2, 2, 0x24, 0, 0x24, 0, 0x21, 0, 1, 0x21, 0, 2];
/// let ascending: Vec<u8> = (0..680u16).flat_map(u16::to_be_bytes).collect();
/// assert_eq!(voltunnis::graph_ordered(&sheet, &ascending)?, voltunnis::graph(&sheet)?);
/// # Ok::<(), voltunnis::Refusal>(())
/// ```
#[inline]
pub fn graph_ordered(sheet: &[u8], table: &[u8]) -> Result<Vec<u8>, Refusal> {
    grown(|buffer| build_ordered(sheet, table, buffer))
}
