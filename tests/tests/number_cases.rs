//! Cases of a switch, one fault at a time: numbers that overlap are accepted, reversed and later ones are not, nor those of
//! a gauge before a lower one; runs of ids that have an id in common are not either; and of more than 255 cases the last
//! counts too.

use voltunnis_tests::faults::{graphs, with_cases, Ended, Met};
use voltunnis_tests::reference::nodes::Case;

#[test]
fn reversed_numbers_and_such_as_come_later_are_refused_by_24() {
    let mut met = Met::default();
    let wrong = |(low, high): (u16, u16), after: Option<(u16, u16)>| {
        let mut ends = Vec::new();
        if low < high {
            ends.push((high, low));
        }
        if let Some((next, last)) = after {
            ends.push((next, last));
            ends.extend(last.checked_add(1).map(|above| (next, above)));
            ends.extend(next.checked_add(1).map(|above| (above, above)));
        }
        ends
    };
    for made in graphs() {
        met.every_node(
            &made,
            |_, node| with_cases(node, |cases| Ended::Numbers.changed(cases, wrong)),
            Err(24),
        );
    }
    met.at_least(500, &[24]);
}

#[test]
fn overlapping_numbers_are_accepted() {
    let mut met = Met::default();
    let overlapping = |(low, _): (u16, u16), after: Option<(u16, u16)>| match after {
        Some((next, last)) if low < next => vec![(low, next), (low, last), (low, 0xffff)],
        Some((_, last)) if low < last => vec![(low, last - 1)],
        _ => Vec::new(),
    };
    let first = |cases: &[Case]| -> Vec<Vec<Case>> {
        // Only the first number case may end anywhere: one after another of the same low comes before it.
        let at = cases.iter().position(|case| matches!(case, Case::Numbers { .. })).unwrap_or(cases.len());
        let (others, numbers) = cases.split_at(at);
        let changed = Ended::Numbers.changed(numbers.get(..2).unwrap_or_default(), overlapping);
        let whole = |two: Vec<Case>| [others, &two, &numbers[2..]].concat();
        changed.into_iter().map(whole).collect()
    };
    graphs().iter().for_each(|made| met.every_node(made, |_, node| with_cases(node, first), Ok(())));
    met.at_least(200, &[0, 19]);
}

/// The cases with the gauge of each number case changed on its own, from its gauge and that of the number case after it,
/// if there is one.
fn on_gauges(cases: &[Case], change: impl Fn(u8, Option<u8>) -> Option<u8>) -> Vec<Vec<Case>> {
    let gauge = |case: &Case| match case {
        Case::Numbers { gauge, .. } => Some(*gauge),
        _ => None,
    };
    let changed = |at: usize| {
        let mut cases = cases.to_vec();
        let new = change(gauge(&cases[at])?, cases.get(at + 1).and_then(gauge))?;
        if let Case::Numbers { gauge, .. } = &mut cases[at] {
            *gauge = new;
        }
        Some(cases)
    };
    (0..cases.len()).filter_map(changed).collect()
}

#[test]
fn a_gauge_above_the_next_case_s_is_refused_by_24() {
    let mut met = Met::default();
    let above = |_: u8, after: Option<u8>| after?.checked_add(1);
    for made in graphs() {
        met.every_node(&made, |_, node| with_cases(node, |cases| on_gauges(cases, above)), Err(24));
    }
    met.at_least(500, &[24]);
}

#[test]
fn the_last_number_case_may_be_on_any_higher_gauge() {
    let mut met = Met::default();
    // Its ends may be those of a case of a lower gauge, and its low may be lower.
    let last = |gauge: u8, after: Option<u8>| if after.is_none() { gauge.checked_add(1) } else { None };
    let highest = |gauge: u8, after: Option<u8>| (after.is_none() && gauge < 255).then_some(255);
    for made in graphs() {
        met.every_node(&made, |_, node| with_cases(node, |cases| on_gauges(cases, last)), Ok(()));
        met.every_node(&made, |_, node| with_cases(node, |cases| on_gauges(cases, highest)), Ok(()));
    }
    met.at_least(200, &[0, 19]);
}

#[test]
fn reversed_runs_of_ids_and_such_as_reach_the_next_are_refused_by_24() {
    let mut met = Met::default();
    let wrong = |(low, high): (u16, u16), after: Option<(u16, u16)>| {
        let mut ends = Vec::new();
        ends.extend((low < high).then_some((high, low)));
        ends.extend(low.checked_sub(1).map(|below| (low, below)));
        if let Some((next, last)) = after {
            ends.extend([(low, next), (low, last), (low, 0xffff), (next, next), (last, last)]);
        }
        ends
    };
    for made in graphs() {
        let changed = |cases: &[Case]| Ended::Symbols.changed(cases, wrong);
        met.every_node(&made, |_, node| with_cases(node, changed), Err(24));
    }
    met.at_least(500, &[24]);
}

#[test]
fn runs_of_ids_up_to_the_next_are_accepted() {
    let mut met = Met::default();
    let right = |(low, high): (u16, u16), after: Option<(u16, u16)>| match after {
        Some((next, _)) => vec![(low, next - 1), (high, high), (next - 1, next - 1)],
        None => vec![(low, 0xffff), (high, high), (0xffff, 0xffff)],
    };
    for made in graphs() {
        let changed = |cases: &[Case]| Ended::Symbols.changed(cases, right);
        met.every_node(&made, |_, node| with_cases(node, changed), Ok(()));
    }
    met.at_least(500, &[0, 19]);
}

#[test]
fn of_300_cases_the_last_counts_too() {
    let symbol = |id, node| Case::Symbols { low: id, high: id, node };
    let all = |last: Case| -> Vec<Case> { (0..299).map(|id| symbol(id * 2, 0)).chain([last]).collect() };
    let (good, low, far) = ((598, 0), (595, 0), (598, 0xffff));
    let [good, low, far] = [good, low, far].map(|(id, node)| all(symbol(id, node)));
    let mut met = Met::default();
    for made in graphs() {
        for (cases, expected) in [(&good, Ok(())), (&low, Err(24)), (&far, Err(23))] {
            met.every_node(&made, |_, node| with_cases(node, |_| vec![cases.clone()]), expected);
        }
        met.every_node(&made, |_, node| with_cases(node, |_| vec![Vec::new()]), Err(22));
    }
    met.at_least(400, &[0, 19, 22, 23, 24]);
}
