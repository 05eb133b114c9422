//! Building the graph of an accepted sheet: questions 18 and 19.
//!
//! A first pass numbers all nodes and counts the bytes, a second one writes them. Tables have three sizes,
//! so that little is cleared for a small sheet.

mod grow;
mod items;
mod keys;
mod rules;
mod runs;
mod sets;
mod wants;
mod write;

use super::graph::MOST_NODES;
use super::sheet::Sheet;
use crate::results::{Built, Refusal};
use items::Item;
use keys::{Keys, LEAVES, NONE};
use rules::Tests;
use sets::{Rules, Set};

/// So many edges are stored by the first pass for the second; those after them are searched again. A switch of
/// more rules has more edges.
const STORED: usize = 4096;
const MANY_STORED: usize = 32_768;

/// Room for the few nodes of a small sheet, and for their edges.
const FEW_NODES: usize = 128;
const FEW_STORED: usize = 384;

/// How many marks there are. Items are at most twice as many, and one more cell for each place test.
fn marks(sheet: &Sheet) -> usize {
    usize::from(sheet.places) * usize::from(sheet.rules)
}

/// Builds the graph in tables that are large enough.
pub fn build(sheet: &Sheet, buffer: &mut [u8]) -> Result<Built, Refusal> {
    match sheet.rules <= 32 {
        true => narrow(sheet, buffer),
        false => wide(sheet, buffer),
    }
}

/// Builds the graph of up to 32 rules.
fn narrow(sheet: &Sheet, buffer: &mut [u8]) -> Result<Built, Refusal> {
    if sheet.rules <= 4 && sheet.places <= 8 {
        let built = build_in::<u32, 72, 32, { LEAVES + 64 }, FEW_NODES, FEW_STORED>(sheet, buffer);
        if built != Err(18) {
            return built;
        }
    }
    if marks(sheet) <= 256 {
        return build_in::<u32, 576, 256, { LEAVES + 512 }, MOST_NODES, STORED>(sheet, buffer);
    }
    build_in::<u32, 4160, 2048, { LEAVES + 1024 }, MOST_NODES, STORED>(sheet, buffer)
}

/// Builds the graph of up to 64 rules.
fn wide(sheet: &Sheet, buffer: &mut [u8]) -> Result<Built, Refusal> {
    if marks(sheet) <= 256 {
        return build_in::<u64, 576, 256, { LEAVES + 512 }, MOST_NODES, STORED>(sheet, buffer);
    }
    build_in::<u64, 8256, 4096, { LEAVES + 1024 }, MOST_NODES, MANY_STORED>(sheet, buffer)
}

/// Builds the graph with sets of rules of this width, in tables of these sizes: cells of items, marks, lists
/// of keys, nodes, stored edges.
#[inline(never)]
fn build_in<
    R: Rules,
    const ITEMS: usize,
    const MARKS: usize,
    const LISTS: usize,
    const NODES: usize,
    const EDGES: usize,
>(
    sheet: &Sheet,
    buffer: &mut [u8],
) -> Result<Built, Refusal> {
    let (mut items, mut marks) = ([Item::<R>::NONE; ITEMS], [R::Items::NONE; MARKS]);
    let (mut live, mut pending, mut earlier) = ([R::NONE; NODES], [0; NODES], [0; NODES]);
    let mut newest = [NONE; LISTS];
    let mut edges = [0; EDGES];
    let tests = Tests::unread(sheet, &mut items, &mut marks);
    let keys = Keys { live: &mut live, pending: &mut pending, earlier: &mut earlier, newest: &mut newest };
    build_with(tests, keys, &mut edges, buffer)
}

/// Builds the graph in lent tables. Question 18: do the nodes fit them? Question 19: does the graph fit
/// the lent buffer?
#[inline(never)]
fn build_with<R: Rules>(
    mut tests: Tests<R>,
    mut keys: Keys<R>,
    edges: &mut [u16],
    buffer: &mut [u8],
) -> Result<Built, Refusal> {
    tests.read();
    let grown = grow::all(&tests, &mut keys, edges).ok_or(18)?;
    if grown.bytes > buffer.len() {
        return Err(19);
    }
    write::graph(buffer, grown.nodes, &tests, &keys, edges);
    Ok(Built { nodes: grown.nodes as u16, bytes: grown.bytes as u32 })
}

#[cfg(test)]
mod tests {
    use super::super::sheet::MOST_RULES;
    use super::*;
    use crate::generate::{crowded::crowded, random::Random, sheets::sheet};
    use crate::reference::own_graph;

    #[test]
    fn wide_sets_of_rules_build_the_same_graphs() {
        let mut random = Random::new(0x7769_6465);
        let mut graphs = 0;
        for round in 0..2_000 {
            let tree = if round % 4 == 0 { crowded(&mut random) } else { sheet(&mut random) };
            let bytes = tree.bytes();
            let mut sheet = Sheet::unread(&bytes);
            if sheet.read(&mut [0; MOST_RULES]).is_ok() && sheet.rules <= 32 {
                let enough = own_graph(&bytes).map_or(60, |graph| graph.len()) + 3;
                let (mut one, mut two) = (vec![0; enough], vec![0; enough]);
                let built = build(&sheet, &mut one);
                assert_eq!(wide(&sheet, &mut two), built);
                assert!(one == two, "other bytes");
                graphs += usize::from(built.is_ok());
            }
        }
        assert!(graphs >= 1_000, "{graphs} graphs");
    }
}
