//! Spans come often enough in pieces, of all sorts, and half of all pieces have none; cases of other makers' graphs
//! overlap and are many; filling in further narrows.

use std::collections::BTreeMap;
use voltunnis_generate::asked::Asked;
use voltunnis_generate::graphs::foreign;
use voltunnis_generate::hostile::hostile_piece;
use voltunnis_generate::nodes::{Case, Node};
use voltunnis_generate::pieces::{further, piece};
use voltunnis_generate::random::Random;
use voltunnis_generate::sheets::sheet;
use voltunnis_generate::stock::Stock;
use voltunnis_generate::trees::{read_piece, Pattern, Term};

/// The spans of terms.
fn spans(terms: &[Term]) -> Vec<(u16, u16)> {
    let of = |term: &Term| match term {
        Term::Span(low, high) => vec![(*low, *high)],
        Term::Compound(_, arguments) => spans(arguments),
        _ => Vec::new(),
    };
    terms.iter().flat_map(of).collect()
}

/// Where spans stand to a range: inside, partly inside or outside; and those of one number.
fn sort(range: (u16, u16), span: (u16, u16)) -> &'static str {
    match (range, span) {
        (_, (low, high)) if low == high => "one number",
        ((low, high), (first, last)) if low <= first && last <= high => "inside",
        ((low, high), (first, last)) if last < low || high < first => "outside",
        _ => "partly",
    }
}

#[test]
fn half_of_all_pieces_have_no_span_and_the_others_spans_of_all_sorts() {
    let mut random = Random::new(0x7370_616e);
    let (mut without, mut sorts) = (0, BTreeMap::new());
    for _ in 0..8_000 {
        let tree = sheet(&mut random);
        let terms = piece(&mut random, &tree, Stock::FULL);
        without += usize::from(spans(&terms).is_empty());
        for (pattern, term) in tree.rules.iter().flatten().zip(&terms) {
            if let (Pattern::Range(low, high), Term::Span(first, last)) = (pattern, term) {
                *sorts.entry(sort((*low, *high), (*first, *last))).or_insert(0) += 1;
            }
        }
        let narrow = Stock::FULL.without_spans();
        assert!(spans(&piece(&mut random, &tree, narrow)).is_empty());
    }
    println!("{without} of 8000 pieces without a span, others {sorts:?}");
    assert!((3_200..5_200).contains(&without), "{without} pieces without a span");
    for wanted in ["inside", "partly", "outside", "one number"] {
        assert!(sorts.get(wanted).is_some_and(|count| *count >= 30), "{wanted}: {sorts:?}");
    }
}

#[test]
fn hostile_spans_are_reversed_equal_or_wide() {
    let mut random = Random::new(0x686f_7374);
    let (mut reversed, mut others) = (0, 0);
    for _ in 0..2_000 {
        let bytes = hostile_piece(&mut random, &[Term::Unknown, Term::Unknown]);
        let Some((terms, _)) = read_piece(&bytes) else { continue };
        for (low, high) in spans(&terms) {
            *(if low > high { &mut reversed } else { &mut others }) += 1;
        }
    }
    assert!(reversed >= 150 && others >= 100, "{reversed} {others}");
}

#[test]
fn what_is_filled_in_further_is_narrower() {
    fn is_further(before: &Term, after: &Term) -> bool {
        match (before, after) {
            (Term::Unknown, _) => true,
            (Term::Span(low, high), Term::Number(n) | Term::Gauged(0, n)) => low <= n && n <= high,
            (Term::Span(low, high), Term::Span(first, last)) => low <= first && first <= last && last <= high,
            (Term::Compound(id, parts), Term::Compound(other, more)) => {
                id == other
                    && parts.len() == more.len()
                    && parts.iter().zip(more).all(|(a, b)| is_further(a, b))
            }
            (before, after) => before == after,
        }
    }
    let mut random = Random::new(0x6675_7274);
    let (mut narrowed, mut filled) = (0, 0);
    for _ in 0..4_000 {
        let tree = sheet(&mut random);
        let terms = piece(&mut random, &tree, Stock::FULL);
        let after = further(&mut random, &terms, 1, 50);
        assert!(terms.iter().zip(&after).all(|(a, b)| is_further(a, b)), "{terms:?} {after:?}");
        for (before, after) in terms.iter().zip(&after).filter(|(before, after)| before != after) {
            narrowed += usize::from(matches!(before, Term::Span(..)));
            filled += usize::from(*before == Term::Unknown && matches!(after, Term::Span(..)));
        }
    }
    assert!(narrowed >= 300 && filled >= 100, "{narrowed} {filled}");
}

#[test]
fn cases_of_other_makers_ascend_overlap_and_are_many() {
    let mut random = Random::new(0x6361_7365);
    let asked = Asked { arity: 1, rules: 2, places: vec![0], pairs: Vec::new() };
    let (mut apart, mut overlapping, mut many) = (0, 0, 0);
    for _ in 0..3_000 {
        for node in foreign(&mut random, &asked) {
            let Node::Switch { cases, .. } = node else { continue };
            let ends = |case: &Case| match case {
                Case::Numbers { gauge: 0, low, high, .. } => Some((*low, *high)),
                _ => None,
            };
            let ends: Vec<(u16, u16)> = cases.iter().filter_map(ends).collect();
            assert!(ends.windows(2).all(|two| two[0] < two[1]) && ends.iter().all(|(low, high)| low <= high));
            let overlap = ends.windows(2).any(|two| two[1].0 <= two[0].1);
            overlapping += usize::from(overlap);
            apart += usize::from(!overlap && ends.len() > 1);
            many += usize::from(cases.len() > 255);
        }
    }
    println!("{apart} apart, {overlapping} overlapping, {many} of more than 255 cases");
    assert!(apart >= 1_000 && overlapping >= 1_000 && many >= 100, "{apart} {overlapping} {many}");
}
