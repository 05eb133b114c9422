//! Series come often enough in sheets, of all sorts and at both ends of the ids, with symbols at their ends and just
//! outside in pieces; runs of ids of other makers' graphs ascend apart, and mangled ones do not.

use std::collections::BTreeMap;
use voltunnis_generate::asked::Asked;
use voltunnis_generate::crowded::crowded;
use voltunnis_generate::graphs::{foreign, mangled};
use voltunnis_generate::hostile::hostile_sheet;
use voltunnis_generate::nodes::{Case, Node};
use voltunnis_generate::pieces::piece;
use voltunnis_generate::random::Random;
use voltunnis_generate::sheets::sheet;
use voltunnis_generate::stock::Stock;
use voltunnis_generate::trees::{all, Pattern, SheetTree, Term};

/// How often each sort was met.
type Sorts = BTreeMap<&'static str, usize>;

fn met(sorts: &mut Sorts, sort: &'static str, is: bool) {
    *sorts.entry(sort).or_default() += usize::from(is);
}

fn often(sorts: &Sorts, least: usize) {
    println!("{sorts:?}");
    assert!(sorts.values().all(|count| *count >= least), "{sorts:?}");
}

/// The series of a sheet, and the symbols as series of one, where they stand as arguments.
fn at_argument(tree: &SheetTree, argument: usize) -> Vec<(u16, u16)> {
    let series = |rule: &Vec<Pattern>| match rule[argument] {
        Pattern::Series(low, high) => Some((low, high)),
        Pattern::Symbol(id) => Some((id, id)),
        _ => None,
    };
    tree.rules.iter().filter_map(series).collect()
}

/// How two series stand to each other.
fn two(sorts: &mut Sorts, (a, b): (u16, u16), (c, d): (u16, u16)) {
    met(sorts, "alike", (a, b) == (c, d));
    met(sorts, "nested", a < c && d < b);
    met(sorts, "overlapping", a < c && c <= b && b < d);
    met(sorts, "adjacent", b.checked_add(1) == Some(c));
    met(sorts, "apart", u32::from(b) + 1 < u32::from(c));
}

#[test]
fn series_of_all_sorts_come_in_sheets() {
    let mut random = Random::new(0x7365_7269);
    let mut sorts = Sorts::new();
    for round in 0..4_000 {
        let tree = if round % 8 == 0 { crowded(&mut random) } else { sheet(&mut random) };
        for pattern in tree.rules.iter().flat_map(|rule| all(rule)) {
            let Pattern::Series(low, high) = *pattern else { continue };
            met(&mut sorts, "one symbol", low == high);
            met(&mut sorts, "several", low < high);
            met(&mut sorts, "reversed", low > high);
            met(&mut sorts, "from 0", low == 0 && high != 0xffff);
            met(&mut sorts, "to 65535", low != 0 && high == 0xffff);
            met(&mut sorts, "all ids", (low, high) == (0, 0xffff));
        }
        for argument in 0..usize::from(tree.arity) {
            let series = at_argument(&tree, argument);
            series.iter().for_each(|one| series.iter().for_each(|other| two(&mut sorts, *one, *other)));
        }
    }
    often(&sorts, 50);
}

#[test]
fn hostile_series_are_reversed_equal_or_wide() {
    let mut random = Random::new(0x686f_7374);
    let tree = SheetTree { arity: 2, rules: vec![vec![Pattern::Anything; 2]] };
    let mut sorts = Sorts::new();
    for _ in 0..4_000 {
        let Some((tree, _)) = SheetTree::read(&hostile_sheet(&mut random, &tree)) else { continue };
        for pattern in tree.rules.iter().flat_map(|rule| all(rule)) {
            let Pattern::Series(low, high) = *pattern else { continue };
            met(&mut sorts, "reversed", low > high);
            met(&mut sorts, "others", low <= high);
        }
    }
    often(&sorts, 30);
}

#[test]
fn symbols_stand_inside_at_the_ends_of_series_and_just_outside() {
    let mut random = Random::new(0x7379_6d62);
    let mut sorts = Sorts::new();
    for _ in 0..4_000 {
        let tree = sheet(&mut random);
        let terms = piece(&mut random, &tree, Stock::FULL);
        for (pattern, term) in tree.rules.iter().flat_map(|rule| rule.iter().zip(&terms)) {
            let (Pattern::Series(low, high), Term::Symbol(id)) = (pattern, term) else { continue };
            met(&mut sorts, "low", id == low);
            met(&mut sorts, "high", id == high);
            met(&mut sorts, "inside", low < id && id < high);
            met(&mut sorts, "just below", low.checked_sub(1) == Some(*id));
            met(&mut sorts, "just above", high.checked_add(1) == Some(*id));
            met(&mut sorts, "outside", id < low || high < id);
        }
    }
    often(&sorts, 100);
}

/// The runs of ids of the switches among nodes.
fn runs(nodes: &[Node]) -> impl Iterator<Item = Vec<(u16, u16)>> + '_ {
    let run = |case: &Case| match case {
        Case::Symbols { low, high, .. } => Some((*low, *high)),
        _ => None,
    };
    nodes.iter().filter_map(move |node| match node {
        Node::Switch { cases, .. } => Some(cases.iter().filter_map(run).collect()),
        _ => None,
    })
}

#[test]
fn runs_of_other_makers_ascend_apart_and_mangled_ones_do_not() {
    let mut random = Random::new(0x7275_6e73);
    let asked = Asked { arity: 1, rules: 2, places: vec![0], pairs: Vec::new() };
    let mut sorts = Sorts::new();
    for _ in 0..3_000 {
        let nodes = foreign(&mut random, &asked);
        for runs in runs(&nodes) {
            assert!(runs.iter().all(|(low, high)| low <= high), "{runs:?}");
            assert!(runs.windows(2).all(|two| two[0].1 < two[1].0), "{runs:?}");
            met(&mut sorts, "of several", runs.iter().any(|(low, high)| low < high));
            met(&mut sorts, "of two", runs.iter().any(|(low, high)| low.checked_add(1) == Some(*high)));
            met(&mut sorts, "adjacent", runs.windows(2).any(|two| two[0].1 + 1 == two[1].0));
            met(&mut sorts, "to 65535", runs.iter().any(|(low, high)| low < high && *high == 0xffff));
        }
        for runs in runs(&mangled(&mut random, &asked, &nodes)) {
            met(&mut sorts, "reversed", runs.iter().any(|(low, high)| low > high));
            met(&mut sorts, "an id in two", runs.windows(2).any(|two| two[0].1 >= two[1].0));
        }
    }
    often(&sorts, 50);
}
