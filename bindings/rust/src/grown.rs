//! Graphs in buffers of their own. A refusal changes no byte, so a build that did not fit is made again with more room.

use crate::{Built, Refusal, MOST_BUILT_BYTES};

/// How many bytes the first buffer has: most graphs fit.
const FIRST_BYTES: usize = 65_536;

/// The question that a buffer too short is refused by.
const TOO_SHORT: u8 = 19;

/// What a build writes, in a buffer that is doubled while it is too short, up to the most that a built graph has.
pub fn grown(build: impl Fn(&mut [u8]) -> Result<Built, Refusal>) -> Result<Vec<u8>, Refusal> {
    let mut room = FIRST_BYTES;
    loop {
        let mut buffer = vec![0; room];
        match build(&mut buffer) {
            Ok(built) => {
                buffer.truncate(built.bytes as usize);
                buffer.shrink_to_fit();
                return Ok(buffer);
            }
            Err(refusal) if refusal.number() == TOO_SHORT && room < MOST_BUILT_BYTES => {
                room = (2 * room).min(MOST_BUILT_BYTES);
            }
            Err(refusal) => return Err(refusal),
        }
    }
}

#[cfg(test)]
mod tests {
    use super::*;
    use std::cell::RefCell;

    /// The buffers that a build of so many bytes was lent, and what came of it.
    fn lent(bytes: u32) -> (Vec<usize>, Result<Vec<u8>, Refusal>) {
        let lent = RefCell::new(Vec::new());
        let short = Refusal::from_number(TOO_SHORT).expect("a refusal");
        let graph = grown(|buffer| {
            lent.borrow_mut().push(buffer.len());
            let written = buffer.get_mut(..bytes as usize).ok_or(short)?;
            written.fill(7);
            Ok(Built { nodes: 1, bytes })
        });
        (lent.into_inner(), graph)
    }

    #[test]
    fn a_buffer_is_doubled_while_it_is_too_short() {
        assert_eq!(lent(65_536), (vec![65_536], Ok(vec![7; 65_536])));
        assert_eq!(lent(65_537), (vec![65_536, 131_072], Ok(vec![7; 65_537])));
        assert_eq!(lent(200_000).0, [65_536, 131_072, 262_144]);
    }

    #[test]
    fn the_most_bytes_are_those_of_1024_switches() {
        assert_eq!(MOST_BUILT_BYTES, 5 + 1_024 * (9 + 8 * 8_385));
        assert_eq!(crate::MOST_BYTES, 5 + 1_024 * (9 + 8 * 65_535));
    }

    #[test]
    fn it_ends_at_the_most_that_a_built_graph_has() {
        let (buffers, graph) = lent(MOST_BUILT_BYTES as u32);
        assert_eq!((buffers.len(), buffers.last()), (12, Some(&MOST_BUILT_BYTES)));
        assert_eq!(graph.map(|graph| graph.len()), Ok(MOST_BUILT_BYTES));
        let (buffers, graph) = lent(MOST_BUILT_BYTES as u32 + 1);
        assert_eq!((buffers.len(), graph.map_err(Refusal::number)), (12, Err(TOO_SHORT)));
    }

    #[test]
    fn other_refusals_are_handed_on_at_once() {
        let refusal = Refusal::from_number(18).expect("a refusal");
        let mut calls = 0;
        let counted = RefCell::new(&mut calls);
        assert_eq!(
            grown(|_| {
                **counted.borrow_mut() += 1;
                Err(refusal)
            }),
            Err(refusal)
        );
        assert_eq!(calls, 1);
    }
}
