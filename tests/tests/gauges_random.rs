//! Numbers on gauges at random (document 02, request 7): the answer over fillings, and the case that is followed on any
//! accepted graph.

use std::cmp::Reverse;
use voltunnis_tests::both::{check_graph, plain, walk, walk_own};
use voltunnis_tests::bytes::to_hex;
use voltunnis_tests::count::Count;
use voltunnis_tests::fillings;
use voltunnis_tests::generate::nodes::{graph_bytes, Case, Node};
use voltunnis_tests::generate::random::Random;
use voltunnis_tests::generate::trees::{piece_bytes, Pattern, SheetTree, Term};
use voltunnis_tests::reference::own_graph;
use voltunnis_tests::results::{GraphSize, Plain};

/// The most fillings to try for one piece.
const MOST: usize = 20_000;

/// Two ends from 0 to 5, or now and then all numbers.
fn ends(random: &mut Random) -> (u16, u16) {
    let low = random.below(6);
    match random.below(12) {
        0 => (0, 0xffff),
        _ => (low as u16, random.between(low, 5) as u16),
    }
}

/// A pattern that numbers on gauges 0, 1 and 255 may meet.
fn pattern(random: &mut Random, depth: usize) -> Pattern {
    let (low, high) = ends(random);
    match random.below(14) {
        0 | 1 => Pattern::Range(low, high),
        2..=6 => Pattern::Gauged(random.pick(&[0, 1, 1, 255]), low, high),
        7..=9 => Pattern::Variable(random.below(2) as u8),
        10 => Pattern::Ranged(random.below(2) as u8, low, high),
        11 if depth < 2 => Pattern::Compound(1, vec![pattern(random, depth + 1); 2]),
        _ => Pattern::Anything,
    }
}

/// A term, mostly a number on a gauge, made for this pattern's place.
fn term(random: &mut Random, pattern: &Pattern) -> Term {
    let (value, high) = (random.below(6) as u16, random.below(6) as u16);
    match (random.below(20), pattern) {
        (0..=2, _) => Term::Unknown,
        (3, _) => Term::Symbol(1),
        (4, _) => Term::Never,
        (5 | 6, _) => Term::Number(value),
        (7 | 8, _) => Term::Span(value.min(high), value.max(high)),
        (_, Pattern::Compound(id, parts)) => {
            Term::Compound(*id, parts.iter().map(|part| term(random, part)).collect())
        }
        (9..=14, Pattern::Gauged(gauge, low, high)) => {
            Term::Gauged(*gauge, random.pick(&[*low, *high, low.saturating_sub(1), high.saturating_add(1)]))
        }
        _ => Term::Gauged(random.pick(&[0, 1, 255]), value),
    }
}

/// Of which sort a piece is: with a number on another gauge than 0, with a span, both, or neither.
fn sort(terms: &[Term]) -> [bool; 2] {
    let of = |term: &Term| match term {
        Term::Gauged(gauge, _) => [*gauge > 0, false],
        Term::Span(..) => [false, true],
        Term::Compound(_, arguments) => sort(arguments),
        _ => [false; 2],
    };
    terms.iter().map(of).fold([false; 2], |[a, b], [c, d]| [a || c, b || d])
}

#[test]
fn sheets_and_pieces_of_gauges_have_the_answer_over_fillings() {
    let mut random = Random::new(0x6761_7567);
    let (mut count, mut compared) = (Count::default(), 0);
    for _ in 0..40_000 {
        let arity = random.between(1, 3);
        let rules = (0..random.between(1, 4)).map(|_| (0..arity).map(|_| pattern(&mut random, 1)).collect());
        let sheet = SheetTree { arity: arity as u8, rules: rules.collect() };
        let made_for = random.below(sheet.rules.len());
        let piece: Vec<Term> = sheet.rules[made_for].iter().map(|part| term(&mut random, part)).collect();
        let (bytes, spelled) = (sheet.bytes(), piece_bytes(&piece));
        let Ok(answer) = plain(&bytes, &spelled) else { continue };
        let Some(tried) = fillings::answer(&sheet, &piece, MOST) else { continue };
        let what = || format!("sheet {} piece {}", to_hex(&bytes), to_hex(&spelled));
        assert_eq!(answer, tried, "the library, fillings: {}", what());
        if own_graph(&bytes).is_some() {
            let walked = walk_own(&bytes, &spelled).walk;
            assert_eq!(Plain { word: walked.word, rule: walked.rule }, tried, "{}", what());
        }
        let sort = match sort(&piece) {
            [true, true] => "gauges and spans",
            [true, false] => "gauges",
            [false, true] => "spans",
            [false, false] => "neither",
        };
        count.met(format!("{}, {sort}", answer.word.name()));
        compared += 1;
    }
    count.print();
    assert!(compared >= 38_000, "{compared} sheets compared");
    for word in ["commit", "execute", "suspend", "fail"] {
        count.often(1_000, [format!("{word}, gauges"), format!("{word}, neither")]);
        count.often(40, [format!("{word}, gauges and spans"), format!("{word}, spans")]);
    }
}

/// Gauge, low and high of a number case.
type Ends = (u8, u16, u16);

/// The case of this gauge that has the highest low, then the lowest high, of those that contain both ends.
fn narrowest(cases: &[Ends], (gauge, low, high): Ends) -> Option<usize> {
    let contains = |at: &usize| cases[*at].0 == gauge && cases[*at].1 <= low && high <= cases[*at].2;
    (0..cases.len()).filter(contains).max_by_key(|at| (cases[*at].1, Reverse(cases[*at].2)))
}

/// Cases of few gauges, ascending, whose ends are few, so that they are alike on some.
fn some_cases(random: &mut Random) -> Vec<Ends> {
    let gauges = random.pick(&[&[0, 1][..], &[1, 2, 3], &[0, 254, 255], &[7]]);
    let reach = random.pick(&[6, 40, 0x10000]);
    let mut case = || {
        let (one, other) = (random.below(reach), random.below(reach));
        (random.pick(gauges), one.min(other) as u16, one.max(other) as u16)
    };
    let mut cases: Vec<Ends> = (0..40).map(|_| case()).collect();
    cases.sort_unstable();
    cases.dedup();
    cases
}

#[test]
fn on_any_accepted_graph_the_narrowest_case_of_its_gauge_is_followed() {
    // 64 rules, so that each of up to 40 cases is known by its rule; the first wants gauge 9, which has no case.
    let mut rules = vec![vec![Pattern::Anything]; 64];
    rules[0] = vec![Pattern::Gauged(9, 0, 0xffff)];
    let sheet = SheetTree { arity: 1, rules }.bytes();
    let mut random = Random::new(0x6e61_7272);
    let mut count = Count::default();
    for _ in 0..3_000 {
        let ends = some_cases(&mut random);
        let number = |(at, (gauge, low, high)): (usize, &Ends)| Case::Numbers {
            gauge: *gauge,
            low: *low,
            high: *high,
            node: at as u16 + 2,
        };
        let cases = ends.iter().enumerate().map(number).collect();
        let mut nodes = vec![Node::Switch { place: 0, neither: 1, unknown: 1, cases }];
        nodes.extend((1..=64).map(Node::Execute));
        let graph = graph_bytes(1, 64, &nodes);
        assert_eq!(check_graph(&sheet, &graph), Ok(GraphSize { nodes: 65 }));
        for _ in 0..12 {
            let ((gauge, low, _), (_, _, high)) = (random.pick(&ends), random.pick(&ends));
            let gauge = if random.percent(15) { gauge.wrapping_add(1) } else { gauge };
            let value = random.pick(&[low, high, low.saturating_sub(1), high.saturating_add(1)]);
            let is_span = random.percent(25) && low <= high;
            let (term, at) = match is_span {
                true => (Term::Span(low, high), (0, low, high)),
                false => (Term::Gauged(gauge, value), (gauge, value, value)),
            };
            let expected = narrowest(&ends, at);
            // Neither executes rule 1, which takes no number of these gauges.
            let rule = walk(&sheet, &graph, &piece_bytes(&[term])).expect("an answer").walk.rule;
            assert_eq!(usize::from(rule), expected.map_or(0, |at| at + 2), "{ends:?} {at:?}");
            let sort = if is_span { "span" } else { "number" };
            count.met(format!("{sort} {}", if expected.is_some() { "taken" } else { "neither" }));
        }
    }
    count.print();
    count.often(1_000, ["number taken", "number neither", "span taken", "span neither"]);
}
