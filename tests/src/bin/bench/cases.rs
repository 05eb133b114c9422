//! What is timed: sheets and pieces from the smallest to the largest.

use voltunnis_tests::bytes::from_hex;
use voltunnis_tests::generate::known::{self, coins};
use voltunnis_tests::generate::random::Random;
use voltunnis_tests::generate::trees::{piece_bytes, Pattern, SheetTree, Term};

/// A sheet and a piece of the same arity.
pub struct Case {
    pub name: &'static str,
    pub sheet: Vec<u8>,
    pub piece: Vec<u8>,
}

/// Four readings that the rule in the middle takes, one not taken yet.
fn coin(count: u16) -> Vec<u8> {
    let at = count / 2;
    let number = |value: u16| Term::Number(value);
    piece_bytes(&[Term::Symbol(at % 4), number(at * 40 + 20), Term::Unknown, number(at * 25 + 15)])
}

/// A pattern of full depth, each of its leaves this one.
fn full_pattern(depth: usize, leaf: &Pattern) -> Pattern {
    match depth {
        4 => leaf.clone(),
        _ => Pattern::Compound(1, vec![full_pattern(depth + 1, leaf); 4]),
    }
}

/// A term of full depth, each of its leaves this one.
fn full_term(depth: usize, leaf: &Term) -> Term {
    match depth {
        4 => leaf.clone(),
        _ => Term::Compound(1, vec![full_term(depth + 1, leaf); 4]),
    }
}

/// A piece of 680 terms.
fn full_piece() -> Vec<u8> {
    piece_bytes(&vec![full_term(1, &Term::Number(7)); 8])
}

/// So many equal rules with 64 place tests each: three full trees of compounds and a symbol.
fn places_64(rules: usize) -> SheetTree {
    let mut rule = vec![full_pattern(1, &Pattern::Anything); 3];
    rule.push(Pattern::Symbol(1));
    rule.resize(8, Pattern::Anything);
    SheetTree { arity: 8, rules: vec![rule; rules] }
}

/// So many equal rules with 55 pairs and 9 place tests each.
fn pairs_64(rules: usize) -> SheetTree {
    let four = |leaf: Pattern| Pattern::Compound(1, vec![leaf; 4]);
    let mut rule = vec![four(Pattern::Variable(0)), four(Pattern::Variable(0))];
    rule.extend([four(Pattern::Anything), four(Pattern::Anything), four(Pattern::Symbol(1))]);
    rule.resize(8, Pattern::Variable(0));
    SheetTree { arity: 8, rules: vec![rule; rules] }
}

/// So many rules that want a range at random at each place, up to this wide.
fn random_ranges(name: &'static str, rules: usize, places: usize, widest: usize) -> Case {
    at_random(name, rules, places, |random| {
        let low = random.below(1000);
        (low, low + random.below(widest))
    })
}

/// So many rules that want the number 0 or 1 at random at each of 8 places.
fn random_bits(name: &'static str, rules: usize) -> Case {
    at_random(name, rules, 8, |random| {
        let bit = random.below(2);
        (bit, bit)
    })
}

/// So many rules that want one of these ranges at each place, and a piece that the rule in the middle
/// takes, one reading not taken yet.
fn at_random(
    name: &'static str,
    rules: usize,
    places: usize,
    range: impl Fn(&mut Random) -> (usize, usize),
) -> Case {
    let mut random = Random::new(1);
    let mut ranges = || (0..places).map(|_| range(&mut random)).collect();
    let rules: Vec<Vec<(usize, usize)>> = (0..rules).map(|_| ranges()).collect();
    let mut terms: Vec<Term> =
        rules[rules.len() / 2].iter().map(|(low, _)| Term::Number(*low as u16)).collect();
    terms[places - 1] = Term::Unknown;
    let pattern = |(low, high): &(usize, usize)| Pattern::Range(*low as u16, *high as u16);
    let rules = rules.iter().map(|rule| rule.iter().map(pattern).collect()).collect();
    case(name, SheetTree { arity: places as u8, rules }.bytes(), piece_bytes(&terms))
}

fn case(name: &'static str, sheet: Vec<u8>, piece: Vec<u8>) -> Case {
    Case { name, sheet, piece }
}

fn example() -> Case {
    case("document 01's example", known::example(), from_hex("1102310001310002"))
}

/// Four readings that the rule in the middle takes: two as spans, one of which the next rule's range cuts.
fn spans(count: u16) -> Vec<u8> {
    let at = count / 2;
    let (diameter, weight) = (at * 40, at * 25);
    piece_bytes(&[
        Term::Symbol(at % 4),
        Term::Span(diameter + 20, diameter + 60),
        Term::Unknown,
        Term::Span(weight + 15, weight + 20),
    ])
}

/// Series at 4 places, and a piece that the rule in the middle takes: two symbols that the next rule takes too, one not
/// taken yet, and one that the next rule does not take.
fn series(name: &'static str, rules: u16) -> Case {
    let id = rules / 2 * 20;
    let symbols = [Term::Symbol(id + 22), Term::Symbol(id + 25), Term::Unknown, Term::Symbol(id + 10)];
    case(name, known::series_4(rules), piece_bytes(&symbols))
}

/// Nested ranges on 4 gauges, and a piece of numbers on one of them that all its rules take.
fn gauges(name: &'static str, sheet: Vec<u8>) -> Case {
    let numbers = vec![Term::Gauged(2, 500); sheet[1].into()];
    case(name, sheet, piece_bytes(&numbers))
}

/// Four readings that the rule in the middle would take, one of a sensor that the machine lacks.
fn without(count: u16) -> Vec<u8> {
    let at = count / 2;
    piece_bytes(&[Term::Symbol(at % 4), Term::Number(at * 40 + 20), Term::Never, Term::Number(at * 25 + 15)])
}

/// Eight places that have to be alike or 1, the last of them this one, the others unknown.
fn alike(name: &'static str, last: Term) -> Case {
    let mut terms = vec![Term::Unknown; 7];
    terms.push(last);
    case(name, known::eight_alike(), piece_bytes(&terms))
}

/// Nested ranges at one place, and one reading.
fn one(name: &'static str, rules: u16, term: Term) -> Case {
    case(name, known::nested_1(rules), piece_bytes(&[term]))
}

/// What is timed of walks alone: pieces with spans and of a machine that lacks a sensor, for graphs that are timed
/// otherwise.
pub fn for_walks() -> Vec<Case> {
    vec![
        case("8 rules of 4 readings, spans", coins(8), spans(8)),
        case("16 rules of 4 readings, spans", coins(16), spans(16)),
        one("nested ranges, a span", 32, Term::Span(20, 990)),
        one("64 nested ranges, a span", 64, Term::Span(20, 990)),
        case("8 rules of 4 readings, one never", coins(8), without(8)),
        alike("28 pairs of unknowns, one never", Term::Never),
    ]
}

/// What is timed of the calls with a graph.
pub fn for_graphs() -> Vec<Case> {
    let open = piece_bytes(&vec![Term::Unknown; 8]);
    let open = |name, sheet| case(name, sheet, open.clone());
    vec![
        example(),
        case("8 rules of 4 readings", coins(8), coin(8)),
        case("16 rules of 4 readings", coins(16), coin(16)),
        case("32 rules of 4 readings", coins(32), coin(32)),
        random_bits("8 rules of zeros and ones", 8),
        random_bits("16 rules of zeros and ones", 16),
        open("32 rules of zeros and ones", known::zeros_and_ones(32)),
        random_ranges("8 rules of random ranges", 8, 4, 300),
        random_ranges("16 rules of random ranges", 16, 6, 300),
        random_ranges("32 rules of random ranges", 32, 4, 300),
        one("nested ranges", 32, Term::Number(500)),
        one("64 nested ranges", 64, Term::Number(500)),
        open("nested ranges at 8 places", known::nested_8(32)),
        open("nested ranges at 16 places", known::nested_16(32)),
        series("32 series at 4 places", 32),
        gauges("nested ranges on 4 gauges", known::gauges_1(32)),
        gauges("nested ranges on 4 gauges at 8 places", known::gauges_8(32)),
        alike("28 pairs of unknowns", Term::Unknown),
        open("most nodes", known::nodes_1024()),
        open("too many nodes", known::nodes_1025()),
    ]
}

/// What is timed in a reading order: few of the same.
pub fn for_orders() -> Vec<Case> {
    let timed = ["16 rules of 4 readings", "32 rules of zeros and ones", "nested ranges at 8 places"];
    let kept = |case: &Case| case.name == example().name || timed.contains(&case.name);
    for_graphs().into_iter().filter(kept).collect()
}

/// What is timed of the listing, whose graphs are short.
pub fn for_listing() -> Vec<Case> {
    vec![
        example(),
        case("8 rules of 4 readings", coins(8), coin(8)),
        case("8 rules of 4 readings, spans", coins(8), spans(8)),
        random_bits("16 rules of zeros and ones", 16),
        series("32 series at 4 places", 32),
    ]
}

/// What is timed of the calls without a graph.
pub fn all() -> Vec<Case> {
    let four = Term::Compound(1, vec![Term::Number(7); 4]);
    let mut paired = vec![four.clone(), four.clone(), four.clone(), four, Term::Unknown];
    paired.resize(8, Term::Number(7));
    let mut spoiled = paired.clone();
    spoiled[7] = Term::Never;
    let mut open = vec![full_term(1, &Term::Unknown); 3];
    open.resize(8, Term::Unknown);
    let hostile = |leaf| SheetTree { arity: 8, rules: vec![vec![full_pattern(1, &leaf); 8]; 32] }.bytes();
    vec![
        example(),
        case("8 rules of 4 readings", coins(8), coin(8)),
        case("32 rules of 4 readings", coins(32), coin(32)),
        case("64 rules of 4 readings", coins(64), coin(64)),
        case("64 rules of 4 readings, spans", coins(64), spans(64)),
        series("32 series at 4 places", 32),
        gauges("nested ranges on 4 gauges at 8 places", known::gauges_8(32)),
        case("32 equal rules of 64 places", places_64(32).bytes(), piece_bytes(&open)),
        case("64 equal rules of 64 places", places_64(64).bytes(), piece_bytes(&open)),
        case("32 equal rules of 55 pairs", pairs_64(32).bytes(), piece_bytes(&paired)),
        case("32 equal rules of 55 pairs, one never", pairs_64(32).bytes(), piece_bytes(&spoiled)),
        case("full depth piece", places_64(32).bytes(), full_piece()),
        case("512 variables a rule", hostile(Pattern::Variable(0)), full_piece()),
    ]
}
