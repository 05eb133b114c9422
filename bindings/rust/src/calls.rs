//! The functions of the static library as safe Rust functions.
//!
//! Each takes byte slices as pointer and length, never a null pointer, and returns one u64, which
//! `packed` unpacks. They are inlined, so that a program links only those that it calls.

use crate::grown::grown;
use crate::packed::unpack;
use crate::{Answer, Built, GraphSize, PieceSize, Plain, Refusal, SheetSize, Walk, Written, MOST_TIDY_BYTES};

extern "C" {
    fn vt_check_sheet(sheet: *const u8, sheet_len: usize) -> u64;
    fn vt_check_piece(piece: *const u8, piece_len: usize) -> u64;
    fn vt_plain(sheet: *const u8, sheet_len: usize, piece: *const u8, piece_len: usize) -> u64;
    fn vt_check_graph(sheet: *const u8, sheet_len: usize, graph: *const u8, graph_len: usize) -> u64;
    fn vt_rewrite(
        sheet: *const u8,
        sheet_len: usize,
        graph: *const u8,
        graph_len: usize,
        buffer: *mut u8,
        buffer_len: usize,
    ) -> u64;
    fn vt_build(sheet: *const u8, sheet_len: usize, buffer: *mut u8, buffer_len: usize) -> u64;
    fn vt_tidy(sheet: *const u8, sheet_len: usize, buffer: *mut u8, buffer_len: usize) -> u64;
    fn vt_walk(
        sheet: *const u8,
        sheet_len: usize,
        graph: *const u8,
        graph_len: usize,
        piece: *const u8,
        piece_len: usize,
    ) -> u64;
    fn vt_wait(
        sheet: *const u8,
        sheet_len: usize,
        graph: *const u8,
        graph_len: usize,
        piece: *const u8,
        piece_len: usize,
    ) -> u64;
}

/// Checks a sheet: questions 1 to 11.
///
/// ```
/// // f(X, X) and f(1, 2), in symbols: arguments 1 and 2 are tested, and whether they are equal.
/// let sheet = [0x10, 2, 2, 0x24, 0, 0x24, 0, 0x21, 0, 1, 0x21, 0, 2];
/// let size = voltunnis::check_sheet(&sheet)?;
/// assert_eq!((size.arity, size.rules, size.tests), (2, 2, 3));
/// # Ok::<(), voltunnis::Refusal>(())
/// ```
#[inline]
pub fn check_sheet(sheet: &[u8]) -> Result<SheetSize, Refusal> {
    // SAFETY: the library reads the given bytes and nothing else.
    unpack(unsafe { vt_check_sheet(sheet.as_ptr(), sheet.len()) })
}

/// Checks a piece: questions 12 to 17, and 32 after 16 at each term.
///
/// ```
/// // (?, 180)
/// assert_eq!(voltunnis::check_piece(&[0x11, 2, 0x30, 0x32, 0, 180])?.arity, 2);
/// // A reading that will never come, 180 on gauge 3, and the next kind, which is no term.
/// assert_eq!(voltunnis::check_piece(&[0x11, 1, 0x35])?.arity, 1);
/// assert_eq!(voltunnis::check_piece(&[0x11, 1, 0x36, 3, 0, 180])?.arity, 1);
/// assert_eq!(voltunnis::check_piece(&[0x11, 1, 0x37]).unwrap_err().number(), 14);
/// // A number between 231 and 239, and the same the wrong way round.
/// assert_eq!(voltunnis::check_piece(&[0x11, 1, 0x34, 0, 231, 0, 239])?.arity, 1);
/// let refusal = voltunnis::check_piece(&[0x11, 1, 0x34, 0, 239, 0, 231]).unwrap_err();
/// assert_eq!(refusal.to_string(), "refused 32: If a span, is its low at most its high?");
/// # Ok::<(), voltunnis::Refusal>(())
/// ```
#[inline]
pub fn check_piece(piece: &[u8]) -> Result<PieceSize, Refusal> {
    // SAFETY: the library reads the given bytes and nothing else.
    unpack(unsafe { vt_check_piece(piece.as_ptr(), piece.len()) })
}

/// The plain answer of a sheet on a piece, without a graph: the sheet's questions, the piece's,
/// then 20.
///
/// ```
/// use voltunnis::{plain, Word};
///
/// # let sheet = [0x10, 2, 2, 0x24, 0, 0x24, 0, 0x21, 0, 1, 0x21, 0, 2];
/// // f(X, X) and f(1, 2) on (1, 2): the second rule.
/// let answer = plain(&sheet, &[0x11, 2, 0x31, 0, 1, 0x31, 0, 2])?;
/// assert_eq!((answer.word, answer.rule), (Word::Commit, 2));
/// # Ok::<(), voltunnis::Refusal>(())
/// ```
#[inline]
pub fn plain(sheet: &[u8], piece: &[u8]) -> Result<Plain, Refusal> {
    // SAFETY: the library reads the given bytes and nothing else.
    unpack(unsafe { vt_plain(sheet.as_ptr(), sheet.len(), piece.as_ptr(), piece.len()) })
}

/// Checks a graph with the sheet that it is for: the sheet's questions, then 21 to 25.
///
/// ```
/// # let sheet = [0x10, 2, 2, 0x24, 0, 0x24, 0, 0x21, 0, 1, 0x21, 0, 2];
/// let graph = voltunnis::graph(&sheet)?;
/// assert_eq!(voltunnis::check_graph(&sheet, &graph)?.nodes, 6);
/// let cut = voltunnis::check_graph(&sheet, &graph[..50]);
/// assert_eq!(cut.unwrap_err().number(), 22);
/// # Ok::<(), voltunnis::Refusal>(())
/// ```
#[inline]
pub fn check_graph(sheet: &[u8], graph: &[u8]) -> Result<GraphSize, Refusal> {
    // SAFETY: the library reads the given bytes and nothing else.
    unpack(unsafe { vt_check_graph(sheet.as_ptr(), sheet.len(), graph.as_ptr(), graph.len()) })
}

/// Writes the nodes of a graph again, to the start of a buffer: the sheet's questions, 21 to 25, then
/// 19. As many bytes are written as the graph has; those after them stay as they are, and all do on a refusal.
///
/// ```
/// # let sheet = [0x10, 2, 2, 0x24, 0, 0x24, 0, 0x21, 0, 1, 0x21, 0, 2];
/// let graph = voltunnis::graph(&sheet)?;
/// let mut buffer = [0; 100];
/// let written = voltunnis::rewrite(&sheet, &graph, &mut buffer)?;
/// assert_eq!(buffer[..written.bytes as usize], graph);
/// # Ok::<(), voltunnis::Refusal>(())
/// ```
#[inline]
pub fn rewrite(sheet: &[u8], graph: &[u8], buffer: &mut [u8]) -> Result<Written, Refusal> {
    // SAFETY: the library reads the given bytes, writes to the buffer, which overlaps none of them,
    // and reaches nothing else.
    unpack(unsafe {
        vt_rewrite(
            sheet.as_ptr(),
            sheet.len(),
            graph.as_ptr(),
            graph.len(),
            buffer.as_mut_ptr(),
            buffer.len(),
        )
    })
}

/// Builds the graph of a sheet, to the start of a buffer: the sheet's questions, then 18 and 19. The
/// bytes after the graph stay as they are, and all do on a refusal. [`MOST_BUILT_BYTES`](crate::MOST_BUILT_BYTES) are
/// always enough.
///
/// ```
/// # let sheet = [0x10, 2, 2, 0x24, 0, 0x24, 0, 0x21, 0, 1, 0x21, 0, 2];
/// let mut buffer = [0; 100];
/// let built = voltunnis::build(&sheet, &mut buffer)?;
/// assert_eq!((built.nodes, built.bytes), (6, 51));
/// assert_eq!(voltunnis::build(&sheet, &mut buffer[..50]).unwrap_err().number(), 19);
/// # Ok::<(), voltunnis::Refusal>(())
/// ```
#[inline]
pub fn build(sheet: &[u8], buffer: &mut [u8]) -> Result<Built, Refusal> {
    // SAFETY: the library reads the given bytes, writes to the buffer, which does not overlap them,
    // and reaches nothing else.
    unpack(unsafe { vt_build(sheet.as_ptr(), sheet.len(), buffer.as_mut_ptr(), buffer.len()) })
}

/// Writes the tidy form of a sheet to the start of a buffer: the sheet's questions, then 31. The bytes after it
/// stay as they are, and all do on a refusal. Two sheets have the same tidy form exactly when they have the same
/// arity and, rule for rule, the same tests.
///
/// ```
/// // f(Y, X, X), in variables 0 and 1: Y stands once.
/// let sheet = [0x10, 3, 1, 0x24, 0, 0x24, 1, 0x24, 1];
/// let mut buffer = [0xff; 10];
/// let written = voltunnis::tidy(&sheet, &mut buffer)?;
/// assert_eq!(written.bytes, 8);
/// assert_eq!(buffer, [0x10, 3, 1, 0x20, 0x24, 0, 0x24, 0, 0xff, 0xff]);
/// assert_eq!(voltunnis::tidy(&sheet, &mut buffer[..7]).unwrap_err().number(), 31);
/// # Ok::<(), voltunnis::Refusal>(())
/// ```
#[inline]
pub fn tidy(sheet: &[u8], buffer: &mut [u8]) -> Result<Written, Refusal> {
    // SAFETY: the library reads the given bytes, writes to the buffer, which does not overlap them,
    // and reaches nothing else.
    unpack(unsafe { vt_tidy(sheet.as_ptr(), sheet.len(), buffer.as_mut_ptr(), buffer.len()) })
}

/// Walks a graph with its sheet and a piece: the sheet's questions, the piece's, then 20 to 27.
///
/// ```
/// use voltunnis::Word;
///
/// # let sheet = [0x10, 2, 2, 0x24, 0, 0x24, 0, 0x21, 0, 1, 0x21, 0, 2];
/// let graph = voltunnis::graph(&sheet)?;
/// // (?, ?): both rules can still be met.
/// let walk = voltunnis::walk(&sheet, &graph, &[0x11, 2, 0x30, 0x30])?;
/// assert_eq!((walk.word, walk.rule, walk.edges), (Word::Suspend, 0, 3));
/// // (35, ?): the first reading will never come, so it differs from every other, and is no 1.
/// assert_eq!(voltunnis::walk(&sheet, &graph, &[0x11, 2, 0x35, 0x30])?.word, Word::Fail);
/// # Ok::<(), voltunnis::Refusal>(())
/// ```
#[inline]
pub fn walk(sheet: &[u8], graph: &[u8], piece: &[u8]) -> Result<Walk, Refusal> {
    // SAFETY: the library reads the given bytes and nothing else.
    unpack(unsafe {
        vt_walk(sheet.as_ptr(), sheet.len(), graph.as_ptr(), graph.len(), piece.as_ptr(), piece.len())
    })
}

/// The wait list of the same walk, test t being bit t; 0 on a refusal. On a built graph a piece filled in further
/// suspends while each listed place keeps the unknown or span that it held and each listed pair is still not known.
///
/// ```
/// # let sheet = [0x10, 2, 2, 0x24, 0, 0x24, 0, 0x21, 0, 1, 0x21, 0, 2];
/// let graph = voltunnis::graph(&sheet)?;
/// // (?, ?) waits for tests 0, 1 and 2: both arguments, and whether they are equal.
/// assert_eq!(voltunnis::wait(&sheet, &graph, &[0x11, 2, 0x30, 0x30]), 0b111);
/// // A number from 3 to 4, or anything: a span partly inside the range waits, one inside it does not.
/// let sheet = [0x10, 1, 2, 0x22, 0, 3, 0, 4, 0x20];
/// let graph = voltunnis::graph(&sheet)?;
/// assert_eq!(voltunnis::wait(&sheet, &graph, &[0x11, 1, 0x34, 0, 2, 0, 4]), 0b1);
/// assert_eq!(voltunnis::wait(&sheet, &graph, &[0x11, 1, 0x34, 0, 3, 0, 4]), 0);
/// # Ok::<(), voltunnis::Refusal>(())
/// ```
#[inline]
pub fn wait(sheet: &[u8], graph: &[u8], piece: &[u8]) -> u64 {
    // SAFETY: the library reads the given bytes and nothing else.
    unsafe { vt_wait(sheet.as_ptr(), sheet.len(), graph.as_ptr(), graph.len(), piece.as_ptr(), piece.len()) }
}

/// The graph of a sheet, built in a buffer of its own: the sheet's questions, then 18. The buffer has 64 KiB at
/// first; while the graph does not fit it is doubled and the graph built again. To build in memory that is at hand
/// already, call [`build`].
///
/// ```
/// // f(X, X) and f(1, 2), in symbols.
/// let sheet = [0x10, 2, 2, 0x24, 0, 0x24, 0, 0x21, 0, 1, 0x21, 0, 2];
/// let graph = voltunnis::graph(&sheet)?;
/// assert_eq!(graph[..5], [0x12, 2, 2, 0, 6]);
/// assert_eq!(graph.len(), 51);
/// # Ok::<(), voltunnis::Refusal>(())
/// ```
#[inline]
pub fn graph(sheet: &[u8]) -> Result<Vec<u8>, Refusal> {
    grown(|buffer| build(sheet, buffer))
}

/// The tidy form of a sheet, written to a buffer of its own: the sheet's questions.
///
/// ```
/// // f(X, X), the second X from 1 to 9, and the same with variable 7, the first from 1 to 9.
/// let one = [0x10, 2, 1, 0x24, 0, 0x25, 0, 0, 1, 0, 9];
/// let other = [0x10, 2, 1, 0x25, 7, 0, 1, 0, 9, 0x24, 7];
/// assert_eq!(voltunnis::tidy_sheet(&one)?, voltunnis::tidy_sheet(&other)?);
/// // The series of the symbols 7 to 7 is the symbol 7.
/// assert_eq!(voltunnis::tidy_sheet(&[0x10, 1, 1, 0x26, 0, 7, 0, 7])?, [0x10, 1, 1, 0x21, 0, 7]);
/// // A range on gauge 0 is a range without a gauge.
/// let named = [0x10, 1, 1, 0x27, 0, 0, 5, 0, 9];
/// assert_eq!(voltunnis::tidy_sheet(&named)?, [0x10, 1, 1, 0x22, 0, 5, 0, 9]);
/// # Ok::<(), voltunnis::Refusal>(())
/// ```
#[inline]
pub fn tidy_sheet(sheet: &[u8]) -> Result<Vec<u8>, Refusal> {
    let mut buffer = vec![0; MOST_TIDY_BYTES];
    let written = tidy(sheet, &mut buffer)?;
    buffer.truncate(written.bytes as usize);
    buffer.shrink_to_fit();
    Ok(buffer)
}

/// Walks a graph with its sheet and a piece, and gives the wait list too.
///
/// ```
/// # let sheet = [0x10, 2, 2, 0x24, 0, 0x24, 0, 0x21, 0, 1, 0x21, 0, 2];
/// let graph = voltunnis::graph(&sheet)?;
/// // (3, 4): no rule can be met.
/// let answer = voltunnis::answer(&sheet, &graph, &[0x11, 2, 0x31, 0, 3, 0x31, 0, 4])?;
/// assert_eq!(answer.to_string(), "fail 0 1 0000000000000000");
/// # Ok::<(), voltunnis::Refusal>(())
/// ```
#[inline]
pub fn answer(sheet: &[u8], graph: &[u8], piece: &[u8]) -> Result<Answer, Refusal> {
    let walk = walk(sheet, graph, piece)?;
    Ok(Answer { walk, wait: wait(sheet, graph, piece) })
}
