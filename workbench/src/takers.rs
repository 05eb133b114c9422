//! What takes each case of a switch: numbers and other terms, only spans, or nothing.

use crate::notation::{Case, Kind};

/// What takes a case of an accepted switch.
#[derive(Clone, Copy, Debug, PartialEq, Eq)]
pub enum Taker {
    /// Numbers or other terms.
    Terms,
    /// Only spans: no number of gauge 0 follows it.
    Spans,
    /// Nothing: no number of its gauge follows it, and spans are on gauge 0.
    Nothing,
}

/// What takes each case of an accepted switch.
pub fn takers(cases: &[(Case, u16)]) -> Vec<Taker> {
    // Numbers of all gauges in one row: those of a gauge come after all of the gauge before.
    let on = |gauge: u8, value: u16| u32::from(gauge) << 16 | u32::from(value);
    let numbers = |(at, (case, _)): (usize, &(Case, u16))| match case {
        Case::Numbers(gauge, low, high) => Some((at, on(*gauge, *low), on(*gauge, *high))),
        _ => None,
    };
    let numbers: Vec<(usize, u32, u32)> = cases.iter().enumerate().filter_map(numbers).collect();
    // The numbers from which on another case may be followed.
    let mut ends: Vec<u32> = numbers.iter().flat_map(|(_, low, high)| [*low, high + 1]).collect();
    ends.sort_unstable();
    ends.dedup();
    let idle = |(case, _): &(Case, u16)| match case {
        Case::Numbers(0, ..) => Taker::Spans,
        Case::Numbers(..) => Taker::Nothing,
        Case::Symbols(..) | Case::Compound(..) => Taker::Terms,
    };
    let mut takers: Vec<Taker> = cases.iter().map(idle).collect();
    // The cases that begin at most there, the narrowest last; those that end before are dropped.
    let mut begun = Vec::new();
    let mut rest = &numbers[..];
    for end in ends {
        let (here, later) = rest.split_at(rest.partition_point(|(_, low, _)| *low <= end));
        begun.extend(here.iter().rev());
        rest = later;
        while begun.last().is_some_and(|(_, _, high)| *high < end) {
            begun.pop();
        }
        if let Some((at, ..)) = begun.last() {
            takers[*at] = Taker::Terms;
        }
    }
    takers
}

/// Whether a node has a case that this takes.
fn has(kind: &Kind, taker: Taker) -> bool {
    matches!(kind, Kind::Switch { cases, .. } if takers(cases).contains(&taker))
}

/// Whether a node has a case that only spans take.
pub fn has_spans(kind: &Kind) -> bool {
    has(kind, Taker::Spans)
}

/// Whether a node has a case that nothing takes.
pub fn has_unused(kind: &Kind) -> bool {
    has(kind, Taker::Nothing)
}

#[cfg(test)]
mod tests {
    use super::*;
    use std::cmp::Reverse;
    use voltunnis_generate::random::Random;

    /// Cases of numbers with these gauges and ends.
    fn numbers(ends: &[(u8, u16, u16)]) -> Vec<(Case, u16)> {
        ends.iter().map(|(gauge, low, high)| (Case::Numbers(*gauge, *low, *high), 0)).collect()
    }

    /// Whether no number follows each of these cases, which are of one gauge.
    fn idle(gauge: u8, ends: &[(u16, u16)]) -> Vec<bool> {
        let ends: Vec<(u8, u16, u16)> = ends.iter().map(|(low, high)| (gauge, *low, *high)).collect();
        let taker = if gauge == 0 { Taker::Spans } else { Taker::Nothing };
        let found = takers(&numbers(&ends));
        assert!(found.iter().all(|found| [Taker::Terms, taker].contains(found)), "{ends:?}: {found:?}");
        found.into_iter().map(|found| found == taker).collect()
    }

    #[test]
    fn a_case_is_idle_where_no_number_follows_it() {
        for gauge in [0, 1, 255] {
            let said = |ends: &[(u16, u16)]| idle(gauge, ends);
            assert_eq!(said(&[(1, 5), (2, 6), (3, 7)]), [false, false, false]);
            // 6 to 9 follow the wider case, unless narrower ones have them all.
            assert_eq!(said(&[(1, 5), (1, 9)]), [false, false]);
            assert_eq!(said(&[(1, 5), (1, 9), (6, 8)]), [false, false, false]);
            assert_eq!(said(&[(1, 5), (1, 9), (6, 9)]), [false, true, false]);
            assert_eq!(said(&[(1, 5), (1, 9), (3, 7), (8, 20)]), [false, true, false, false]);
            assert_eq!(said(&[(1, 5), (1, 9), (2, 9), (3, 4)]), [false, true, false, false]);
            assert_eq!(said(&[(0, 9), (3, 10), (5, 9)]), [false, false, false]);
            assert_eq!(said(&[(0, 8), (0, 65535), (9, 65535)]), [false, true, false]);
            assert_eq!(said(&[(0, 65535)]), [false]);
        }
    }

    #[test]
    fn the_numbers_of_another_gauge_follow_no_case() {
        // 0..9 of gauge 0 and 5..9 of gauge 1: nothing takes 0..9 of gauge 1 but its own 0 to 4.
        let ends = [(0, 0, 4), (0, 0, 9), (0, 5, 9), (1, 0, 4), (1, 0, 9), (1, 5, 9), (2, 0, 65535)];
        let [terms, spans, nothing] = [Taker::Terms, Taker::Spans, Taker::Nothing];
        assert_eq!(takers(&numbers(&ends)), [terms, spans, terms, terms, nothing, terms, terms]);
        assert_eq!(takers(&numbers(&[(1, 0, 9), (2, 0, 4), (2, 5, 9)])), [terms, terms, terms]);
        let mut cases = vec![(Case::Symbols(0, 9), 0), (Case::Compound(5, 1), 0)];
        cases.extend(numbers(&ends[3..6]));
        assert_eq!(takers(&cases), [terms, terms, terms, nothing, terms]);
        let kind = Kind::Switch { place: 0, neither: 0, unknown: 0, cases };
        assert_eq!((has_spans(&kind), has_unused(&kind)), (false, true));
    }

    #[test]
    fn idle_cases_are_those_that_no_number_is_found_to_follow() {
        let mut random = Random::new(0x7370_616e);
        let mut counts = [0; 3];
        for _ in 0..2_000 {
            let mut ends: Vec<(u8, u16, u16)> = Vec::new();
            for _ in 0..40 {
                let gauge = [0, 0, 1, 255][random.below(4)];
                let (low, high) = (random.below(12) as u16, random.below(12) as u16);
                ends.extend((low <= high).then_some((gauge, low, high)));
            }
            ends.sort_unstable();
            ends.dedup();
            let idle = |gauge: u8| if gauge == 0 { Taker::Spans } else { Taker::Nothing };
            let mut found: Vec<Taker> = ends.iter().map(|(gauge, ..)| idle(*gauge)).collect();
            for (gauge, number) in [0, 1, 255].into_iter().flat_map(|gauge| (0..12).map(move |n| (gauge, n)))
            {
                let has = |at: &usize| ends[*at].0 == gauge && (ends[*at].1..=ends[*at].2).contains(&number);
                let narrowest =
                    (0..ends.len()).filter(has).max_by_key(|at| (ends[*at].1, Reverse(ends[*at].2)));
                narrowest.into_iter().for_each(|at| found[at] = Taker::Terms);
            }
            assert_eq!(takers(&numbers(&ends)), found, "{ends:?}");
            found.iter().for_each(|taker| counts[*taker as usize] += 1);
        }
        assert!(counts.iter().all(|count| *count >= 500), "{counts:?}");
    }
}
