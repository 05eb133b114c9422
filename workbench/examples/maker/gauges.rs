//! Mistakes over gauges (document 02, request 7).

use super::nevers::plain;
use super::series::{kept, recut};
use super::{call as right, Said};
use std::cmp::Reverse;
use std::collections::BTreeSet;
use voltunnis_workbench::notation::{Case, Form, Piece};
use voltunnis_workbench::truth::{equal, without_gauges, Truth};

/// Equal values are held equal, whatever their gauges.
fn blind(piece: &Piece, p: u16, q: u16) -> Truth {
    equal(&without_gauges(piece), p, q)
}

/// The cases in which each gauge is cut wherever one of them is.
fn mingled(cases: &[(Case, u16)], _: u16) -> Vec<(Case, u16)> {
    let mut all = cases.to_vec();
    all.retain(|(case, _)| !matches!(case, Case::Numbers(..)));
    let numbers = || {
        cases.iter().filter_map(|(case, node)| match case {
            Case::Numbers(gauge, low, high) => Some((*gauge, *low, *high, *node)),
            _ => None,
        })
    };
    let lows: BTreeSet<u16> = numbers().map(|(_, low, ..)| low).collect();
    let highs: BTreeSet<u16> = numbers().map(|(_, _, high, _)| high).collect();
    for gauge in numbers().map(|(gauge, ..)| gauge).collect::<BTreeSet<u8>>() {
        for (low, high) in lows.iter().flat_map(|low| highs.range(low..).map(move |high| (*low, *high))) {
            let contain = numbers().filter(|(on, from, to, _)| *on == gauge && *from <= low && high <= *to);
            let narrowest = contain.max_by_key(|(_, from, to, _)| (*from, Reverse(*to)));
            all.extend(narrowest.map(|(.., node)| (Case::Numbers(gauge, low, high), node)));
        }
    }
    all
}

/// Of the cases of named gauges those for one run.
fn lean(cases: &[(Case, u16)], _: u16) -> Vec<(Case, u16)> {
    let parted = |gauge: u8, low: u16, high: u16| {
        let inside =
            |case: &Case| matches!(case, Case::Numbers(on, l, _) if *on == gauge && low < *l && *l <= high);
        cases.iter().any(|(case, _)| inside(case))
    };
    let is_lean = |(case, _): &&(Case, u16)| match case {
        Case::Numbers(gauge, low, high) => *gauge == 0 || !parted(*gauge, *low, *high),
        _ => true,
    };
    cases.iter().filter(is_lean).copied().collect()
}

/// The cases with one for all numbers of gauge 0 where only other gauges have any.
fn ground(cases: &[(Case, u16)], neither: u16) -> Vec<(Case, u16)> {
    let mut all = cases.to_vec();
    if let Some(at) = cases.iter().position(|(case, _)| matches!(case, Case::Numbers(..))) {
        if !matches!(cases[at].0, Case::Numbers(0, ..)) {
            all.insert(at, (Case::Numbers(0, 0, u16::MAX), neither));
        }
    }
    all
}

/// A call with one mistake.
pub fn call(trap: &str, name: &str, arguments: &mut [Vec<u8>]) -> Option<Said> {
    match (trap, name, &mut *arguments) {
        ("blind", "plain", _) => plain(arguments, blind),
        ("mingled", "build", _) => recut(name, arguments, mingled),
        ("lean", "build", _) => recut(name, arguments, lean),
        ("ground", "build", _) => recut(name, arguments, ground),
        ("zero", "tidy", [sheet, buffer]) => {
            Some(kept(sheet, buffer, |form| matches!(form, Form::Gauged(0, ..))))
        }
        _ => right(name, arguments),
    }
}
