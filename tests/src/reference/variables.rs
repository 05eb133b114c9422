//! The variables of one rule: where each stands, the common part of its ranges, its pairs.

use super::sheet::Want;

/// A variable's record at a place, with its range if it is ranged.
#[derive(Clone, Copy)]
pub struct Occurrence {
    pub variable: u8,
    pub place: u16,
    pub range: Option<(u16, u16)>,
}

/// The common part of the ranges of one variable's records, all on gauge 0, none if no record is ranged.
/// It is empty where its low is above its high.
fn common_part(records: &[Occurrence]) -> Option<(u16, u16)> {
    records.iter().filter_map(|record| record.range).reduce(|(low, high), (l, h)| (low.max(l), high.min(h)))
}

/// Sorts a rule's occurrences by variable. Those of one variable keep their order, which is
/// ascending by place.
pub fn by_variable(occurrences: &mut [Occurrence]) {
    occurrences.sort_by_key(|record| record.variable);
}

/// Adds the place tests that one variable's records give.
/// Question 9: has the variable's set of ranges a number in common?
pub fn add_wants(records: &[Occurrence], wants: &mut Vec<(u16, Want)>) -> Result<(), u8> {
    let Some((low, high)) = common_part(records) else {
        return Ok(());
    };
    if low > high {
        return Err(9);
    }
    wants.extend(records.iter().map(|record| (record.place, Want::Range { gauge: 0, low, high })));
    Ok(())
}

/// The pairs p < q of one variable's places, ascending by p, then q.
pub fn pairs_of(records: &[Occurrence]) -> impl Iterator<Item = (u16, u16)> + '_ {
    records.iter().enumerate().flat_map(|(i, p)| records[i + 1..].iter().map(move |q| (p.place, q.place)))
}
