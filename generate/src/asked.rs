//! What the rules of a sheet ask: the places and the pairs of places that they test.

use crate::trees::{Pattern, SheetTree};
use std::collections::BTreeSet;

/// How many places a place of depth 1, 2, 3, 4 has at or below it.
pub const SUBTREE: [u16; 4] = [85, 21, 5, 1];

/// What a graph has to know of its sheet: the two numbers of its header, and what its nodes may ask.
#[derive(Clone, Debug, Default, PartialEq, Eq)]
pub struct Asked {
    pub arity: u8,
    pub rules: u8,
    /// The tested places, ascending.
    pub places: Vec<u16>,
    /// The tested pairs, ascending.
    pub pairs: Vec<(u16, u16)>,
}

/// A variable at a place: its number, and whether it is ranged.
type Occurrence = (u8, u16, bool);

/// The tests of patterns, the first at this place; a place deeper than a piece has is left out.
fn collect(
    patterns: &[Pattern],
    mut place: u16,
    depth: usize,
    places: &mut BTreeSet<u16>,
    found: &mut Vec<Occurrence>,
) {
    let Some(subtree) = SUBTREE.get(depth - 1) else { return };
    for pattern in patterns {
        match pattern {
            Pattern::Anything => {}
            Pattern::Variable(number) => found.push((*number, place, false)),
            Pattern::Ranged(number, ..) => found.push((*number, place, true)),
            Pattern::Symbol(_) | Pattern::Series(..) | Pattern::Range(..) | Pattern::Gauged(..) => {
                places.insert(place);
            }
            Pattern::Compound(_, arguments) => {
                places.insert(place);
                collect(arguments, place + 1, depth + 1, places, found);
            }
        }
        place += subtree;
    }
}

impl Asked {
    /// What the rules of this sheet ask.
    pub fn of(sheet: &SheetTree) -> Asked {
        let (mut places, mut pairs) = (BTreeSet::new(), BTreeSet::new());
        for rule in &sheet.rules {
            let mut found = Vec::new();
            collect(rule, 0, 1, &mut places, &mut found);
            for (at, (number, p, _)) in found.iter().enumerate() {
                if found.iter().any(|(other, _, ranged)| other == number && *ranged) {
                    places.insert(*p);
                }
                let later = found[at + 1..].iter().filter(|(other, ..)| other == number);
                pairs.extend(later.map(|(_, q, _)| (*p, *q)));
            }
        }
        Asked {
            arity: sheet.arity,
            rules: sheet.rules.len() as u8,
            places: places.into_iter().collect(),
            pairs: pairs.into_iter().collect(),
        }
    }

    /// How many tests they are.
    pub fn count(&self) -> usize {
        self.places.len() + self.pairs.len()
    }
}
