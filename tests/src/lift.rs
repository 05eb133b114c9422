//! Graphs of before request 7 (document 02), whose number cases have no gauge: "Graphs of older sheets gain a gauge of 0 in
//! each number case, the second supplier's too." This is the independent lifter, beside the workbench's: they share no code,
//! and the workbench's is tested with graphs of before that are made here.

use crate::reference::records::{wide, Reader};

/// The graph with a gauge of 0 in each number case, from a graph of before; none if that is not whole.
pub fn lift(graph: &[u8]) -> Option<Vec<u8>> {
    rewritten(graph, |from, to| {
        to.push(0);
        copy::<6>(from, to)
    })
}

/// The graph without its gauges, as it was before; none if it has another gauge than 0 or is not whole.
pub fn lower(graph: &[u8]) -> Option<Vec<u8>> {
    rewritten(graph, |from, to| match from.take()? {
        [0] => copy::<6>(from, to),
        _ => None,
    })
}

/// Copies so many bytes.
fn copy<const N: usize>(from: &mut Reader, to: &mut Vec<u8>) -> Option<()> {
    to.extend(from.take::<N>()?);
    Some(())
}

/// The graph with the bodies of its number cases written anew in this way.
fn rewritten(graph: &[u8], numbers: impl Fn(&mut Reader, &mut Vec<u8>) -> Option<()>) -> Option<Vec<u8>> {
    let mut from = Reader::new(graph);
    let header: [u8; 5] = from.take()?;
    let mut to = header.to_vec();
    for _ in 0..wide(header[3], header[4]) {
        node(&mut from, &mut to, &numbers)?;
    }
    from.rest().is_empty().then_some(to)
}

fn node(
    from: &mut Reader,
    to: &mut Vec<u8>,
    numbers: &impl Fn(&mut Reader, &mut Vec<u8>) -> Option<()>,
) -> Option<()> {
    let [kind] = from.take()?;
    to.push(kind);
    match kind {
        0x40 | 0x41 => Some(()),
        0x42 => copy::<1>(from, to),
        0x43 => {
            let switch: [u8; 8] = from.take()?;
            to.extend(switch);
            (0..wide(switch[2], switch[3])).try_for_each(|_| case(from, to, numbers))
        }
        0x47 => copy::<8>(from, to),
        _ => None,
    }
}

fn case(
    from: &mut Reader,
    to: &mut Vec<u8>,
    numbers: &impl Fn(&mut Reader, &mut Vec<u8>) -> Option<()>,
) -> Option<()> {
    let [kind] = from.take()?;
    to.push(kind);
    match kind {
        0x44 => copy::<6>(from, to),
        0x45 => copy::<5>(from, to),
        0x46 => numbers(from, to),
        _ => None,
    }
}
