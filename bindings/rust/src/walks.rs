//! Many pieces for one check: sheet and graph are read once, then pieces one after another are walked.

use crate::packed::unpack;
use crate::{Answer, Refusal, Run, Walk, Word};

/// The bytes of one result.
pub const RESULT_BYTES: usize = 16;

extern "C" {
    fn vt_walk_all(
        sheet: *const u8,
        sheet_len: usize,
        graph: *const u8,
        graph_len: usize,
        pieces: *const u8,
        pieces_len: usize,
        results: *mut u8,
        results_len: usize,
    ) -> u64;
}

/// Walks pieces one after another, each ending with its last term, and writes a result of 16 bytes for each
/// to the start of a buffer: the sheet's questions, 21 to 25, then those of each piece. It stops where the
/// pieces end, the buffer has no room, or a piece cannot be read. What the run gives says how far it came, so
/// that the next one goes on there. The bytes after the results stay as they are, and all do on a refusal.
///
/// ```
/// use voltunnis::{results, walk_all, RESULT_BYTES};
///
/// # let sheet = [0x10, 2, 2, 0x24, 0, 0x24, 0, 0x21, 0, 1, 0x21, 0, 2];
/// let graph = voltunnis::graph(&sheet)?;
/// // (?, 1), (?, ?), (3, 4): two at a time.
/// let pieces = [0x11, 2, 0x30, 0x31, 0, 1, 0x11, 2, 0x30, 0x30, 0x11, 2, 0x31, 0, 3, 0x31, 0, 4];
/// let mut buffer = [0; 2 * RESULT_BYTES];
/// let first = walk_all(&sheet, &graph, &pieces, &mut buffer)?;
/// assert_eq!((first.results, first.bytes), (2, 10));
/// let words: Vec<String> = results(&buffer).map(|answer| answer.unwrap().to_string()).collect();
/// assert_eq!(words, ["execute 1 2 0000000000000004", "suspend 0 3 0000000000000007"]);
/// let rest = &pieces[first.bytes as usize..];
/// assert_eq!(walk_all(&sheet, &graph, rest, &mut buffer)?.results, 1);
/// # Ok::<(), voltunnis::Refusal>(())
/// ```
#[inline]
pub fn walk_all(sheet: &[u8], graph: &[u8], pieces: &[u8], results: &mut [u8]) -> Result<Run, Refusal> {
    // SAFETY: the library reads the given bytes, writes to the buffer, which overlaps none of them,
    // and reaches nothing else.
    unpack(unsafe {
        vt_walk_all(
            sheet.as_ptr(),
            sheet.len(),
            graph.as_ptr(),
            graph.len(),
            pieces.as_ptr(),
            pieces.len(),
            results.as_mut_ptr(),
            results.len(),
        )
    })
}

/// The results that a run wrote: for each piece its answer, or the question that refused it.
///
/// # Panics
/// If 16 of the bytes are no result, as those after the results of a run may be.
pub fn results(bytes: &[u8]) -> impl Iterator<Item = Result<Answer, Refusal>> + '_ {
    bytes.chunks_exact(RESULT_BYTES).map(|one| match result(one) {
        Some(result) => result,
        None => panic!("no result is spelled {one:02x?}"),
    })
}

/// The result that 16 bytes spell: refusal, word, rule, edges, four zeros, and the wait list.
fn result(bytes: &[u8]) -> Option<Result<Answer, Refusal>> {
    let [refusal, word, rule, edges, 0, 0, 0, 0, wait @ ..] = *bytes.first_chunk::<RESULT_BYTES>()? else {
        return None;
    };
    let wait = u64::from_be_bytes(wait);
    if refusal > 0 {
        let empty = (word, rule, edges, wait) == (0, 0, 0, 0);
        return Refusal::from_number(refusal).filter(|_| empty).map(Err);
    }
    Word::from_number(word).map(|word| Ok(Answer { walk: Walk { word, rule, edges }, wait }))
}

/// How many results [`Answers`] has room for.
const ROOM: usize = 256;

/// The answers for pieces one after another, by runs of [`walk_all`]: see [`answers`].
pub struct Answers<'a> {
    sheet: &'a [u8],
    graph: &'a [u8],
    rest: &'a [u8],
    buffer: Vec<u8>,
    /// The results of the last run that were not handed out yet.
    left: std::ops::Range<usize>,
}

/// The answers for pieces one after another: the sheet's questions and 21 to 25 are asked at once, those of
/// a piece when its turn comes. A piece that is refused by 20, 26 or 27 is an error among the answers; one
/// that cannot be read, by 12 to 16 or 32, is the last.
///
/// ```
/// # let sheet = [0x10, 2, 2, 0x24, 0, 0x24, 0, 0x21, 0, 1, 0x21, 0, 2];
/// let graph = voltunnis::graph(&sheet)?;
/// // (?, ?), the piece (?), which has another arity, (1, 2), and half a piece.
/// let pieces = [0x11, 2, 0x30, 0x30, 0x11, 1, 0x30, 0x11, 2, 0x31, 0, 1, 0x31, 0, 2, 0x11, 2, 0x30];
/// let mut answers = voltunnis::answers(&sheet, &graph, &pieces)?;
/// let words: Vec<String> = answers.by_ref().map(|answer| match answer {
///     Ok(answer) => answer.walk.word.to_string(),
///     Err(refusal) => format!("refused {}", refusal.number()),
/// }).collect();
/// assert_eq!(words, ["suspend", "refused 20", "commit", "refused 14"]);
/// assert_eq!(answers.rest(), [0x11, 2, 0x30]);
/// # Ok::<(), voltunnis::Refusal>(())
/// ```
pub fn answers<'a>(sheet: &'a [u8], graph: &'a [u8], pieces: &'a [u8]) -> Result<Answers<'a>, Refusal> {
    let mut answers =
        Answers { sheet, graph, rest: pieces, buffer: vec![0; ROOM * RESULT_BYTES], left: 0..0 };
    answers.run()?;
    Ok(answers)
}

impl<'a> Answers<'a> {
    /// Walks as many pieces as there is room for.
    fn run(&mut self) -> Result<(), Refusal> {
        let Run { results, bytes } = walk_all(self.sheet, self.graph, self.rest, &mut self.buffer)?;
        self.rest = &self.rest[bytes as usize..];
        self.left = 0..results as usize;
        Ok(())
    }

    /// The bytes after the pieces that were read; once all answers are handed out, those of a piece that
    /// cannot be read, if there is one.
    pub fn rest(&self) -> &'a [u8] {
        self.rest
    }
}

impl Iterator for Answers<'_> {
    type Item = Result<Answer, Refusal>;

    fn next(&mut self) -> Option<Self::Item> {
        // A run that stopped for want of room used all of it, and goes on.
        if self.left.is_empty() && self.left.end == ROOM {
            self.run().expect("a sheet and a graph that were accepted before");
        }
        let at = self.left.next()? * RESULT_BYTES;
        let answer = results(&self.buffer[at..at + RESULT_BYTES]).next();
        if matches!(answer, Some(Err(refusal)) if matches!(refusal.number(), 12..=16 | 32)) {
            self.left = 0..0;
        }
        answer
    }
}
