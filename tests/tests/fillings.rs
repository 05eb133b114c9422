//! The reference against fillings: on small sheets its plain answer, and that of its walk on the built graph, is the
//! one that trying every filling gives, each number of a span among them. The library plays no part here.

use voltunnis_tests::bytes::{from_hex, to_hex};
use voltunnis_tests::fillings::{self, holds_never};
use voltunnis_tests::generate::pieces::piece;
use voltunnis_tests::generate::random::Random;
use voltunnis_tests::generate::sheets::small_sheet;
use voltunnis_tests::generate::stock::Stock;
use voltunnis_tests::generate::trees::{piece_bytes, Pattern, SheetTree, Term};
use voltunnis_tests::reference;
use voltunnis_tests::results::{Plain, Word};

/// The most fillings to try for one piece.
const MOST: usize = 20_000;

/// A stock of these and of two gauges, with compounds of so many arguments down to a depth, and spans so often.
const fn stock(
    ids: &'static [u16],
    series: &'static [u16],
    numbers: &'static [u16],
    (most_arguments, deepest_compound): (usize, usize),
    spans: usize,
) -> Stock {
    let (gauges, gauged, nevers) = (&[0, 1], 30, 30);
    Stock { ids, series, numbers, gauges, most_arguments, deepest_compound, spans, gauged, nevers }
}

/// Few ids and numbers with wide compounds, or fewer still with deep ones.
const STOCKS: [Stock; 5] = [
    stock(&[1, 2], &[1, 2, 4], &[1, 2, 4], (2, 1), 50),
    stock(&[1], &[0, 0xffff], &[0, 0xffff], (1, 3), 20),
    stock(&[1, 2], &[1, 2], &[3, 5], (1, 2), 50),
    stock(&[1], &[0, 1], &[2], (2, 2), 50),
    stock(&[1], &[1, 2], &[0, 1, 2, 3, 4, 5], (2, 1), 80),
];

/// The answer to compare, if sheet and piece are accepted and their fillings are few enough.
fn tried(sheet: &SheetTree, piece: &[Term]) -> Option<Plain> {
    let (sheet_bytes, piece_bytes) = (sheet.bytes(), piece_bytes(piece));
    let answer = reference::plain(&sheet_bytes, &piece_bytes).ok()?;
    let by_fillings = fillings::answer(sheet, piece, MOST)?;
    assert_eq!(
        answer,
        by_fillings,
        "reference, fillings: sheet {} piece {}",
        to_hex(&sheet_bytes),
        to_hex(&piece_bytes)
    );
    if let Some(graph) = reference::own_graph(&sheet_bytes) {
        let walked = reference::walk(&sheet_bytes, &graph, &piece_bytes).expect("an answer").walk;
        let walked = Plain { word: walked.word, rule: walked.rule };
        assert_eq!(walked, answer, "walk: sheet {} piece {}", to_hex(&sheet_bytes), to_hex(&piece_bytes));
    }
    Some(answer)
}

#[test]
fn the_plain_answer_is_the_one_over_fillings() {
    let mut random = Random::new(0x6669_6c6c);
    let (mut words, mut spans, mut nevers) = ([0; 5], [0; 5], [0; 5]);
    for round in 0..25_000 {
        let stock = STOCKS[round % STOCKS.len()];
        let sheet = small_sheet(&mut random, stock);
        let piece = piece(&mut random, &sheet, stock);
        if let Some(answer) = tried(&sheet, &piece) {
            let words = match (piece.iter().any(holds_never), has_span(&piece)) {
                (true, _) => &mut nevers,
                (false, true) => &mut spans,
                (false, false) => &mut words,
            };
            words[answer.word as usize] += 1;
        }
    }
    println!(
        "answers by word: {words:?}, with spans {spans:?}, with readings that will never come {nevers:?}"
    );
    for word in [Word::Commit, Word::Execute, Word::Suspend, Word::Fail] {
        for (words, least) in [(words, 1_000), (spans, 150), (nevers, 50)] {
            assert!(words[word as usize] >= least, "{}: {} answers", word.name(), words[word as usize]);
        }
    }
}

/// Whether some term of a piece is a span of several numbers.
fn has_span(terms: &[Term]) -> bool {
    terms.iter().any(|term| match term {
        Term::Span(low, high) => low < high,
        Term::Compound(_, arguments) => has_span(arguments),
        _ => false,
    })
}

/// Two ends from 0 to 7, of up to 6 numbers.
fn ends(random: &mut Random) -> (u16, u16) {
    let low = random.below(8);
    (low as u16, random.between(low, 7.min(low + 5)) as u16)
}

/// A pattern that numbers may meet.
fn pattern(random: &mut Random, depth: usize) -> Pattern {
    let (low, high) = ends(random);
    match random.below(12) {
        0..=4 => Pattern::Range(low, high),
        5..=7 => Pattern::Variable(random.below(2) as u8),
        8 => Pattern::Ranged(random.below(2) as u8, low, high),
        9 if depth < 2 => Pattern::Compound(1, vec![pattern(random, depth + 1); 2]),
        10 => Pattern::Symbol(1),
        _ => Pattern::Anything,
    }
}

/// A term, mostly a span, made for this pattern's place.
fn spanned(random: &mut Random, pattern: &Pattern) -> Term {
    let (low, high) = ends(random);
    match (random.below(20), pattern) {
        (0, _) => Term::Unknown,
        (1, _) => Term::Symbol(1),
        (2 | 3, _) => Term::Number(low),
        (_, Pattern::Compound(id, parts)) => {
            Term::Compound(*id, parts.iter().map(|part| spanned(random, part)).collect())
        }
        _ => Term::Span(low, high),
    }
}

#[test]
fn pieces_full_of_spans_have_the_answer_over_fillings() {
    let mut random = Random::new(0x7370_616e);
    let mut words = [0; 5];
    for _ in 0..40_000 {
        let arity = random.between(1, 3);
        let rules = (0..random.between(1, 4)).map(|_| (0..arity).map(|_| pattern(&mut random, 1)).collect());
        let sheet = SheetTree { arity: arity as u8, rules: rules.collect() };
        let made_for = random.below(sheet.rules.len());
        let piece: Vec<Term> = sheet.rules[made_for].iter().map(|part| spanned(&mut random, part)).collect();
        if let Some(answer) = tried(&sheet, &piece).filter(|_| has_span(&piece)) {
            words[answer.word as usize] += 1;
        }
    }
    println!("answers by word: {words:?}");
    for word in [Word::Commit, Word::Execute, Word::Suspend, Word::Fail] {
        assert!(words[word as usize] >= 2_000, "{}: {} answers", word.name(), words[word as usize]);
    }
}

/// A pattern, mostly a variable or anything.
fn tied(random: &mut Random, depth: usize) -> Pattern {
    match random.below(8) {
        0..=3 => Pattern::Variable(random.below(2) as u8),
        4 if depth < 3 => Pattern::Compound(1, vec![tied(random, depth + 1)]),
        5 => Pattern::Symbol(1),
        _ => Pattern::Anything,
    }
}

/// A term of readings that are missing or a symbol, made for this pattern's place.
fn missing(random: &mut Random, pattern: &Pattern, depth: usize) -> Term {
    match (random.below(10), pattern) {
        (0..=2, _) => Term::Never,
        (3 | 4, _) => Term::Unknown,
        (_, Pattern::Compound(id, parts)) => {
            Term::Compound(*id, parts.iter().map(|part| missing(random, part, depth + 1)).collect())
        }
        (5 | 6, _) if depth < 3 => Term::Compound(1, vec![missing(random, pattern, depth + 1)]),
        _ => Term::Symbol(1),
    }
}

#[test]
fn pieces_full_of_missing_readings_have_the_answer_over_fillings() {
    let mut random = Random::new(0x6e65_7665);
    let mut words = [0; 5];
    for _ in 0..40_000 {
        let arity = random.between(1, 3);
        let rules = (0..random.between(1, 4)).map(|_| (0..arity).map(|_| tied(&mut random, 1)).collect());
        let sheet = SheetTree { arity: arity as u8, rules: rules.collect() };
        let made_for = random.below(sheet.rules.len());
        let piece: Vec<Term> =
            sheet.rules[made_for].iter().map(|part| missing(&mut random, part, 1)).collect();
        if let Some(answer) = tried(&sheet, &piece).filter(|_| piece.iter().any(holds_never)) {
            words[answer.word as usize] += 1;
        }
    }
    println!("answers by word: {words:?}");
    for word in [Word::Commit, Word::Execute, Word::Suspend, Word::Fail] {
        assert!(words[word as usize] >= 500, "{}: {} answers", word.name(), words[word as usize]);
    }
}

/// Ends of series: from 0 to 7, or at the highest ids.
fn series(random: &mut Random) -> (u16, u16) {
    let ids = [0, 1, 2, 3, 4, 5, 6, 7, 0xfffe, 0xffff];
    let (one, other) = (random.pick(&ids), random.pick(&ids));
    (one.min(other), one.max(other))
}

/// A pattern that symbols may meet.
fn symbols(random: &mut Random, depth: usize) -> Pattern {
    let (low, high) = series(random);
    match random.below(10) {
        0..=5 => Pattern::Series(low, high),
        6 => Pattern::Symbol(low),
        7 => Pattern::Variable(0),
        8 if depth < 2 => Pattern::Compound(1, vec![symbols(random, depth + 1)]),
        _ => Pattern::Anything,
    }
}

/// A term, mostly a symbol, made for this pattern's place: at the ends of a series and just outside.
fn near(random: &mut Random, pattern: &Pattern) -> Term {
    match (random.below(10), pattern) {
        (0 | 1, _) => Term::Unknown,
        (2, _) => Term::Number(random.below(8) as u16),
        (_, Pattern::Compound(id, parts)) => {
            Term::Compound(*id, parts.iter().map(|part| near(random, part)).collect())
        }
        (_, Pattern::Series(low, high)) => {
            Term::Symbol(random.pick(&[*low, *high, low.saturating_sub(1), high.saturating_add(1)]))
        }
        _ => Term::Symbol(series(random).0),
    }
}

#[test]
fn sheets_of_series_have_the_answer_over_fillings() {
    let mut random = Random::new(0x7365_7269);
    let mut words = [0; 5];
    for _ in 0..20_000 {
        let arity = random.between(1, 3);
        let rules = (0..random.between(1, 4)).map(|_| (0..arity).map(|_| symbols(&mut random, 1)).collect());
        let sheet = SheetTree { arity: arity as u8, rules: rules.collect() };
        let made_for = random.below(sheet.rules.len());
        let piece: Vec<Term> = sheet.rules[made_for].iter().map(|part| near(&mut random, part)).collect();
        if let Some(answer) = tried(&sheet, &piece) {
            words[answer.word as usize] += 1;
        }
    }
    println!("answers by word: {words:?}");
    for word in [Word::Commit, Word::Execute, Word::Suspend, Word::Fail] {
        assert!(words[word as usize] >= 1_000, "{}: {} answers", word.name(), words[word as usize]);
    }
}

#[test]
fn spans_that_meet_in_pairs_have_a_number_in_common() {
    use Pattern::{Ranged, Variable};
    let three = SheetTree { arity: 3, rules: vec![vec![Variable(0); 3]] };
    let span = |low, high| Term::Span(low, high);
    let said = |terms: [Term; 3]| tried(&three, &terms).expect("few fillings");
    let (execute, fail) = (Plain { word: Word::Execute, rule: 1 }, Plain { word: Word::Fail, rule: 0 });
    assert_eq!(said([span(1, 4), span(3, 6), span(2, 3)]), execute);
    assert_eq!(said([span(1, 3), span(3, 6), span(4, 5)]), fail);
    assert_eq!(said([span(1, 2), span(1, 2), span(1, 2)]), execute);
    assert_eq!(said([span(2, 2), Term::Number(2), span(2, 2)]), Plain { word: Word::Commit, rule: 1 });
    assert_eq!(said([span(2, 2), Term::Number(2), Term::Symbol(2)]), fail);
    // The variable's range is one interval more.
    let ranged = SheetTree { arity: 2, rules: vec![vec![Ranged(0, 4, 9), Variable(0)]] };
    assert_eq!(tried(&ranged, &[span(1, 4), span(3, 6)]), Some(execute));
    assert_eq!(tried(&ranged, &[span(1, 3), span(3, 6)]), Some(fail));
    // Also inside compounds.
    let f = |term| Term::Compound(1, vec![term]);
    assert_eq!(said([f(span(1, 4)), f(span(3, 6)), Term::Unknown]), execute);
    assert_eq!(said([f(span(1, 2)), f(span(3, 6)), Term::Unknown]), fail);
}

#[test]
fn linked_variables_are_met_by_a_common_term() {
    use Pattern::{Compound, Variable};
    let f = |term| Term::Compound(1, vec![term]);
    let chain = SheetTree { arity: 3, rules: vec![vec![Variable(0); 3]] };
    let open = vec![Term::Unknown, f(Term::Unknown), f(f(Term::Unknown))];
    assert_eq!(tried(&chain, &open), Some(Plain { word: Word::Execute, rule: 1 }));
    let apart = vec![f(Term::Symbol(1)), Term::Unknown, f(f(Term::Unknown))];
    assert_eq!(tried(&chain, &apart), Some(Plain { word: Word::Fail, rule: 0 }));
    let deeper = SheetTree { arity: 2, rules: vec![vec![Compound(1, vec![Variable(0)]), Variable(0)]] };
    let lower = vec![f(Term::Unknown), f(f(f(Term::Symbol(1))))];
    assert_eq!(tried(&deeper, &lower), Some(Plain { word: Word::Execute, rule: 1 }));
}

#[test]
fn fillings_give_the_example_and_its_marked_answers() {
    let sheet = SheetTree {
        arity: 2,
        rules: vec![vec![Pattern::Variable(0); 2], vec![Pattern::Symbol(1), Pattern::Symbol(2)]],
    };
    assert_eq!(sheet.bytes(), from_hex("10 02 02 24 00 24 00 21 00 01 21 00 02"));
    for (terms, word, rule) in [
        ([Term::Symbol(1), Term::Symbol(2)], Word::Commit, 2),
        ([Term::Unknown, Term::Symbol(1)], Word::Execute, 1),
        ([Term::Unknown, Term::Unknown], Word::Suspend, 0),
        ([Term::Symbol(3), Term::Symbol(4)], Word::Fail, 0),
    ] {
        assert_eq!(tried(&sheet, &terms), Some(Plain { word, rule }));
    }
}
