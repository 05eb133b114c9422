//! The variables of a rule, and how long a sheet's tidy form is (document 02, request 2).

use crate::trees::{all, Pattern, SheetTree};
use std::collections::BTreeMap;

/// What the records of one variable say together.
#[derive(Clone, Copy, Debug, Default, PartialEq, Eq)]
pub struct Variable {
    /// At how many places it stands.
    pub places: usize,
    /// The common part of its ranges, none if no record of it is ranged.
    pub range: Option<(u16, u16)>,
}

/// The variables of a rule by their numbers.
pub fn variables(rule: &[Pattern]) -> BTreeMap<u8, Variable> {
    let mut variables = BTreeMap::<u8, Variable>::new();
    for pattern in all(rule) {
        let (number, range) = match pattern {
            Pattern::Variable(number) => (*number, None),
            Pattern::Ranged(number, low, high) => (*number, Some((*low, *high))),
            _ => continue,
        };
        let variable = variables.entry(number).or_default();
        variable.places += 1;
        let both = |(low, high): (u16, u16), (l, h): (u16, u16)| (low.max(l), high.min(h));
        variable.range = variable.range.into_iter().chain(range).reduce(both);
    }
    variables
}

/// How many bytes the tidy form of a sheet has: other records than the sheet's for variables, for series of one symbol,
/// which have 2 bytes less, and for ranges that name gauge 0, which have 1 byte less.
pub fn tidy_length(sheet: &SheetTree) -> usize {
    let records = |variable: Variable| match (variable.places, variable.range) {
        (1, None) => 1,
        (1, Some(_)) => 5,
        (places, None) => 2 * places,
        (places, Some(_)) => 6 * places,
    };
    let other = |pattern: &&Pattern| match pattern {
        Pattern::Variable(_) => 2,
        Pattern::Ranged(..) => 6,
        Pattern::Series(low, high) if low == high => 2,
        Pattern::Gauged(0, ..) => 1,
        _ => 0,
    };
    let tidy: usize = sheet.rules.iter().flat_map(|rule| variables(rule).into_values()).map(records).sum();
    let untidy: usize = sheet.rules.iter().flat_map(|rule| all(rule)).map(|pattern| other(&pattern)).sum();
    sheet.bytes().len() - untidy + tidy
}
