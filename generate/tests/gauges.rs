//! Gauges come often enough in sheets, pieces and other makers' graphs: 0 by its name, the highest, and some beside each
//! other; one value stands on two gauges under one variable; known cases come at once; shrinking keeps a gauge where it
//! matters.

use std::collections::BTreeMap;
use voltunnis_generate::asked::Asked;
use voltunnis_generate::calls::{Call, Name, Role};
use voltunnis_generate::crowded::crowded;
use voltunnis_generate::disguise::disguise_piece;
use voltunnis_generate::graphs::{foreign, mangled};
use voltunnis_generate::hostile::{hostile_piece, hostile_sheet};
use voltunnis_generate::nodes::{Case, Node};
use voltunnis_generate::pieces::piece;
use voltunnis_generate::random::Random;
use voltunnis_generate::sheets::sheet;
use voltunnis_generate::shrink::smallest;
use voltunnis_generate::stock::Stock;
use voltunnis_generate::stream::Stream;
use voltunnis_generate::trees::{all, read_piece, Pattern, SheetTree, Term};

/// How often each sort was met.
type Sorts = BTreeMap<&'static str, usize>;

fn met(sorts: &mut Sorts, sort: &'static str, is: bool) {
    *sorts.entry(sort).or_default() += usize::from(is);
}

fn often(sorts: &Sorts, least: usize) {
    println!("{sorts:?}");
    assert!(sorts.values().all(|count| *count >= least), "{sorts:?}");
}

/// The ranges that rules want at an argument, each with its gauge.
fn at_argument(tree: &SheetTree, argument: usize) -> Vec<(u8, u16, u16)> {
    let range = |rule: &Vec<Pattern>| match rule[argument] {
        Pattern::Range(low, high) => Some((0, low, high)),
        Pattern::Gauged(gauge, low, high) => Some((gauge, low, high)),
        _ => None,
    };
    tree.rules.iter().filter_map(range).collect()
}

#[test]
fn ranges_on_gauges_of_all_sorts_come_in_sheets() {
    let mut random = Random::new(0x6761_7567);
    let mut sorts = Sorts::new();
    for round in 0..4_000 {
        let tree = if round % 8 == 0 { crowded(&mut random) } else { sheet(&mut random) };
        for pattern in tree.rules.iter().flat_map(|rule| all(rule)) {
            let Pattern::Gauged(gauge, low, high) = *pattern else { continue };
            met(&mut sorts, "0 by its name", gauge == 0);
            met(&mut sorts, "255", gauge == 255);
            met(&mut sorts, "reversed", low > high);
            met(&mut sorts, "all numbers", (low, high) == (0, 0xffff));
        }
        for argument in 0..usize::from(tree.arity) {
            let ranges = at_argument(&tree, argument);
            for (one, other) in ranges.iter().flat_map(|one| ranges.iter().map(move |other| (one, other))) {
                let next = one.0.checked_add(1) == Some(other.0);
                met(&mut sorts, "next to each other", next);
                met(&mut sorts, "the same ends", one.0 < other.0 && (one.1, one.2) == (other.1, other.2));
                met(&mut sorts, "to the end, then from 0", next && one.2 == 0xffff && other.1 == 0);
            }
        }
    }
    often(&sorts, 50);
}

/// The gauge and value of a number.
fn number(term: &Term) -> Option<(u8, u16)> {
    match term {
        Term::Number(value) => Some((0, *value)),
        Term::Gauged(gauge, value) => Some((*gauge, *value)),
        _ => None,
    }
}

#[test]
fn numbers_stand_at_the_ends_of_ranges_just_outside_and_on_other_gauges() {
    let mut random = Random::new(0x6e75_6d62);
    let mut sorts = Sorts::new();
    for _ in 0..16_000 {
        let tree = sheet(&mut random);
        let terms = piece(&mut random, &tree, Stock::FULL);
        for rule in &tree.rules {
            for (pattern, term) in rule.iter().zip(&terms) {
                let Pattern::Gauged(gauge, low, high) = pattern else { continue };
                met(&mut sorts, "a span", matches!(term, Term::Span(..)));
                let Some((on, value)) = number(term) else { continue };
                met(&mut sorts, "low", (on, value) == (*gauge, *low));
                met(&mut sorts, "high", (on, value) == (*gauge, *high));
                met(&mut sorts, "just below", on == *gauge && low.checked_sub(1) == Some(value));
                met(&mut sorts, "just above", on == *gauge && high.checked_add(1) == Some(value));
                met(&mut sorts, "inside, on another gauge", on != *gauge && *low <= value && value <= *high);
            }
            let tied: Vec<&Term> = rule
                .iter()
                .zip(&terms)
                .filter(|(one, _)| **one == Pattern::Variable(0))
                .map(|it| it.1)
                .collect();
            for two in tied.windows(2) {
                let (Some(one), Some(other)) = (number(two[0]), number(two[1])) else { continue };
                met(&mut sorts, "one value on two gauges", one.0 != other.0 && one.1 == other.1);
                met(&mut sorts, "alike, spelled otherwise", one == other && two[0] != two[1]);
                met(&mut sorts, "alike on a gauge", one == other && one.0 > 0);
            }
        }
        let none = piece(&mut random, &SheetTree { arity: 2, rules: vec![] }, Stock::FULL.without_gauges());
        assert!(!none.iter().any(|term| matches!(term, Term::Gauged(..))), "{none:?}");
    }
    often(&sorts, 20);
}

#[test]
fn hostile_ranges_are_reversed_on_all_gauges_and_hostile_numbers_stand_at_the_limit() {
    let mut random = Random::new(0x686f_7374);
    let tree = SheetTree { arity: 2, rules: vec![vec![Pattern::Anything; 2]] };
    let mut sorts = Sorts::new();
    for _ in 0..8_000 {
        if let Some((tree, _)) = SheetTree::read(&hostile_sheet(&mut random, &tree)) {
            for pattern in tree.rules.iter().flat_map(|rule| all(rule)) {
                let Pattern::Gauged(gauge, low, high) = *pattern else { continue };
                met(&mut sorts, "reversed on gauge 0", gauge == 0 && low > high);
                met(&mut sorts, "reversed on another", gauge > 0 && low > high);
                met(&mut sorts, "others", low <= high);
            }
        }
        let Some((terms, _)) = read_piece(&hostile_piece(&mut random, &[Term::Unknown])) else { continue };
        met(&mut sorts, "65535 on gauge 255", terms.contains(&Term::Gauged(255, 0xffff)));
    }
    often(&sorts, 10);
}

/// The number cases of the switches among nodes.
fn numbers(nodes: &[Node]) -> impl Iterator<Item = Vec<(u8, u16, u16)>> + '_ {
    let number = |case: &Case| match case {
        Case::Numbers { gauge, low, high, .. } => Some((*gauge, *low, *high)),
        _ => None,
    };
    nodes.iter().filter_map(move |node| match node {
        Node::Switch { cases, .. } => Some(cases.iter().filter_map(number).collect()),
        _ => None,
    })
}

#[test]
fn cases_of_other_makers_ascend_by_gauge_and_mangled_ones_do_not() {
    let mut random = Random::new(0x6361_7365);
    let asked = Asked { arity: 1, rules: 2, places: vec![0], pairs: Vec::new() };
    let mut sorts = Sorts::new();
    for _ in 0..3_000 {
        let nodes = foreign(&mut random, &asked);
        for cases in numbers(&nodes) {
            assert!(cases.windows(2).all(|two| two[0] < two[1]), "{cases:?}");
            let on = |gauge: u8| cases.iter().any(|case| case.0 == gauge);
            met(&mut sorts, "gauge 0 alone", on(0) && cases.iter().all(|case| case.0 == 0));
            met(&mut sorts, "without gauge 0", !on(0) && !cases.is_empty());
            met(&mut sorts, "several gauges", cases.windows(2).any(|two| two[0].0 < two[1].0));
            met(
                &mut sorts,
                "a lower low",
                cases.windows(2).any(|two| two[0].0 < two[1].0 && two[0].1 > two[1].1),
            );
            met(&mut sorts, "gauge 255", on(255));
        }
        for cases in numbers(&mangled(&mut random, &asked, &nodes)) {
            met(&mut sorts, "a gauge out of turn", cases.windows(2).any(|two| two[0].0 > two[1].0));
        }
    }
    often(&sorts, 100);
}

#[test]
fn a_piece_in_disguise_has_the_same_numbers() {
    let mut random = Random::new(0x6469_7367);
    let mut sorts = Sorts::new();
    for _ in 0..3_000 {
        let tree = sheet(&mut random);
        let terms = piece(&mut random, &tree, Stock::FULL);
        let other = disguise_piece(&mut random, &terms);
        for (one, other) in terms.iter().zip(&other) {
            assert_eq!(number(one), number(other));
            met(&mut sorts, "named", matches!((one, other), (Term::Number(_), Term::Gauged(..))));
            met(&mut sorts, "name dropped", matches!((one, other), (Term::Gauged(..), Term::Number(_))));
            met(&mut sorts, "as it was", one == other && number(one).is_some());
        }
    }
    often(&sorts, 100);
}

/// A builder that has no graph for any sheet, as far as the generators know.
fn no_graph(_: &[u8], _: Option<&[u8]>) -> Option<Vec<u8>> {
    None
}

#[test]
fn known_ones_come_at_once_whatever_the_seed() {
    for seed in 1..=5 {
        let opening: Vec<String> =
            Stream::new(seed, no_graph).take(180).map(|call| call.to_string()).collect();
        for line in [
            "plain 10020124002400 110232000536000005",
            "plain 10020124002400 110232000536010005",
            "plain 10020124002400 1102340001000936010005",
            "plain 100101270100020009 11013400020009",
            "plain 100102270000020009270100030004 110136010003",
            "plain 10010220270100020003 11013400020003",
        ] {
            assert!(opening.iter().any(|call| call == line), "seed {seed}: {line}");
        }
    }
}

#[test]
fn shrinking_keeps_a_gauge_where_it_matters_and_else_drops_it() {
    let patterns = |call: &Call| {
        let tree = call.argument(Role::Sheet).and_then(SheetTree::read);
        tree.map_or_else(Vec::new, |(tree, _)| tree.rules.concat())
    };
    let terms = |call: &Call| call.argument(Role::Piece).and_then(read_piece).map_or(vec![], |it| it.0);
    let gauges = |call: &Call| {
        let range = patterns(call).into_iter().find_map(|it| match it {
            Pattern::Gauged(gauge, ..) if gauge > 0 => Some(gauge),
            _ => None,
        });
        let number = terms(call).into_iter().find_map(|it| number(&it)).map(|(gauge, _)| gauge);
        range.zip(number)
    };
    let alike = |call: &Call| gauges(call).is_some_and(|(one, other)| one == other);
    let calls =
        |seed| Stream::new(seed, no_graph).filter(move |call| call.name() == Name::Plain && alike(call));
    for call in calls(6).take(20) {
        // Both gauges come down together.
        let small = smallest(&call, &no_graph, &mut |call| alike(call), 100_000);
        assert_eq!(small.to_string(), "plain 100101270100000000 110136010000", "from {call}");
        // A range or a number of any gauge is one of gauge 0.
        let ranged = |it: &Pattern| matches!(it, Pattern::Gauged(..) | Pattern::Range(..));
        let small = smallest(&call, &no_graph, &mut |call| patterns(call).iter().any(ranged), 100_000);
        assert_eq!(small.to_string(), "check_sheet 1001012200000000", "from {call}");
        let small = smallest(
            &call,
            &no_graph,
            &mut |call| terms(call).iter().any(|it| number(it).is_some()),
            100_000,
        );
        assert_eq!(small.to_string(), "check_piece 1101320000", "from {call}");
    }
}
