//! Readings that will never come stand at all depths of pieces, beside unknowns and spans and in equal parts; most
//! pieces have none; a stream begins with known ones; filling in further makes them of unknowns alone, and shrinking
//! makes unknowns of them.

use std::collections::BTreeMap;
use voltunnis_generate::calls::{Call, Name, Role};
use voltunnis_generate::hostile::hostile_piece;
use voltunnis_generate::pieces::{further, piece};
use voltunnis_generate::random::Random;
use voltunnis_generate::sheets::sheet;
use voltunnis_generate::shrink::smallest;
use voltunnis_generate::stock::Stock;
use voltunnis_generate::stream::Stream;
use voltunnis_generate::trees::{all, read_piece, Pattern, SheetTree, Term};

/// The depths of readings that will never come.
fn depths(terms: &[Term], depth: usize) -> Vec<usize> {
    let of = |term: &Term| match term {
        Term::Never => vec![depth],
        Term::Compound(_, arguments) => depths(arguments, depth + 1),
        _ => Vec::new(),
    };
    terms.iter().flat_map(of).collect()
}

/// How often each sort was met.
type Sorts = BTreeMap<String, usize>;

fn often(sorts: &Sorts, least: usize, wanted: &[&str]) {
    println!("{sorts:?}");
    for sort in wanted {
        assert!(sorts.get(*sort).is_some_and(|count| *count >= least), "{sort}: {sorts:?}");
    }
}

/// What two terms are that a variable ties, one of which is or holds a reading that will never come.
fn sort(one: &Term, other: &Term) -> Option<&'static str> {
    let holds = |term: &Term| !depths(std::slice::from_ref(term), 1).is_empty();
    match (one, other) {
        (Term::Never, Term::Never) => Some("both"),
        (Term::Never, Term::Unknown) | (Term::Unknown, Term::Never) => Some("beside an unknown"),
        (Term::Never, Term::Span(..)) | (Term::Span(..), Term::Never) => Some("beside a span"),
        (Term::Compound(..), Term::Unknown) if holds(one) => Some("inside, beside an unknown"),
        (Term::Unknown, Term::Compound(..)) if holds(other) => Some("inside, beside an unknown"),
        (Term::Compound(..), Term::Compound(..)) if holds(one) && one == other => Some("inside, alike"),
        (Term::Compound(..), Term::Compound(..)) if holds(one) != holds(other) => Some("inside one"),
        _ => None,
    }
}

#[test]
fn they_stand_at_all_depths_and_beside_everything() {
    let mut random = Random::new(0x6e65_7665);
    let (mut without, mut sorts) = (0, Sorts::new());
    for _ in 0..60_000 {
        let tree = sheet(&mut random);
        let terms = piece(&mut random, &tree, Stock::FULL);
        let depths_in = depths(&terms, 1);
        without += usize::from(depths_in.is_empty());
        depths_in.iter().for_each(|depth| *sorts.entry(format!("depth {depth}")).or_default() += 1);
        for rule in &tree.rules {
            let at = |number: &Pattern| (0..terms.len()).filter(|at| rule.get(*at) == Some(number)).collect();
            let places: Vec<usize> = at(&Pattern::Variable(0));
            for (p, q) in places.iter().zip(places.iter().skip(1)) {
                if let Some(sort) = sort(&terms[*p], &terms[*q]) {
                    *sorts.entry(sort.into()).or_default() += 1;
                }
            }
        }
        let none = Stock::FULL.without_nevers();
        assert!(depths(&piece(&mut random, &tree, none), 1).is_empty());
    }
    println!("{without} of 60000 pieces without");
    assert!((36_000..51_000).contains(&without), "{without} pieces without");
    often(&sorts, 300, &["depth 1", "depth 2", "depth 3", "depth 4"]);
    often(&sorts, 20, &["both", "beside an unknown", "beside a span", "inside, beside an unknown"]);
    often(&sorts, 20, &["inside, alike", "inside one"]);
}

#[test]
fn hostile_pieces_have_them_at_the_limits() {
    let mut random = Random::new(0x686f_7374);
    let mut sorts = Sorts::new();
    for _ in 0..2_000 {
        let bytes = hostile_piece(&mut random, &[Term::Unknown, Term::Unknown]);
        let Some((terms, _)) = read_piece(&bytes) else { continue };
        depths(&terms, 1).iter().for_each(|depth| *sorts.entry(format!("depth {depth}")).or_default() += 1);
        if let [Term::Compound(_, parts), _] | [_, Term::Compound(_, parts)] = &terms[..] {
            let of = if parts.first() == Some(&Term::Never) { parts.len() } else { 0 };
            *sorts.entry(format!("{of} in a compound")).or_default() += 1;
        }
    }
    often(&sorts, 30, &["depth 1", "depth 4", "depth 5", "depth 6"]);
    often(&sorts, 20, &["4 in a compound", "5 in a compound", "255 in a compound"]);
}

#[test]
fn only_an_unknown_becomes_one_and_it_stays() {
    let mut random = Random::new(0x6675_7274);
    let mut sorts = Sorts::new();
    for _ in 0..6_000 {
        let tree = sheet(&mut random);
        let terms = piece(&mut random, &tree, Stock::FULL);
        for (before, after) in terms.iter().zip(further(&mut random, &terms, 1, 50)) {
            match (before, &after) {
                (Term::Never, _) => assert_eq!(after, Term::Never),
                (Term::Unknown, Term::Never) => *sorts.entry("became".into()).or_default() += 1,
                (Term::Unknown, Term::Compound(..))
                    if !depths(std::slice::from_ref(&after), 1).is_empty() =>
                {
                    *sorts.entry("inside".into()).or_default() += 1;
                }
                (_, Term::Never) => panic!("{before:?} became one"),
                _ => {}
            }
        }
    }
    often(&sorts, 30, &["became", "inside"]);
}

/// A builder that has no graph for any sheet, as far as the generators know.
fn no_graph(_: &[u8], _: Option<&[u8]>) -> Option<Vec<u8>> {
    None
}

/// The terms of a call's piece, none if it cannot be read.
fn terms(call: &Call) -> Vec<Term> {
    let piece = call.argument(Role::Piece).and_then(read_piece);
    piece.map_or_else(Vec::new, |(terms, _)| terms)
}

#[test]
fn known_ones_come_at_once_whatever_the_seed() {
    for seed in 1..=5 {
        let opening: Vec<String> =
            Stream::new(seed, no_graph).take(180).map(|call| call.to_string()).collect();
        for line in [
            "plain 10020124002400 11023535",
            "plain 10020124002400 1102303300010135",
            "plain 10020124002400 110233000101353300010135",
            "plain 1002012020 11023535",
            "plain 10020224002400202200020003 11023530",
            "plain 10020324012401250000020002240120230001012401 11023530",
            "walk 10010123000101210005 12010100044300010001000200034400050005000142014041 110135",
            "walk 100201230001012400230001012400 12020100034700010056000100024041 11023530",
        ] {
            assert!(opening.iter().any(|call| call == line), "seed {seed}: {line}");
        }
    }
}

#[test]
fn shrinking_keeps_one_where_it_matters_and_else_makes_an_unknown_of_it() {
    let has_never = |call: &Call| !depths(&terms(call), 1).is_empty();
    let calls = Stream::new(6, no_graph).filter(|call| call.name() == Name::Plain && has_never(call));
    for call in calls.take(40) {
        let small = smallest(&call, &no_graph, &mut |call| has_never(call), 100_000);
        assert_eq!(small.to_string(), "check_piece 110135", "from {call}");
        let small = smallest(&call, &no_graph, &mut |call| !terms(call).is_empty(), 100_000);
        assert_eq!(small.to_string(), "check_piece 110130", "from {call}");
    }
}

#[test]
fn where_a_compound_s_patterns_are_lifted_it_stands_at_each() {
    let line = "plain 10010123000502210001210002 110135";
    let call = Call::read(line).unwrap_or_else(|_| panic!("a call: {line}"));
    // One rule with two symbols, and a piece of its arity with such a reading as an argument.
    let mut shows = |call: &Call| {
        let Some((tree, _)) = call.argument(Role::Sheet).and_then(SheetTree::read) else { return false };
        let [rule] = &tree.rules[..] else { return false };
        let symbols = all(rule).into_iter().filter(|pattern| matches!(pattern, Pattern::Symbol(_)));
        let terms = terms(call);
        symbols.count() == 2 && terms.len() == usize::from(tree.arity) && terms.contains(&Term::Never)
    };
    let small = smallest(&call, &no_graph, &mut shows, 10_000);
    assert_eq!(small.to_string(), "plain 100201210000210000 11023035");
}
