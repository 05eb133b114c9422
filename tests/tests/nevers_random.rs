//! Readings that will never come, at random (document 02, request 6): unknowns that become 35, and pairs that are asked
//! beside unknowns.

use voltunnis_tests::both::walk_own;
use voltunnis_tests::bytes::to_hex;
use voltunnis_tests::count::Count;
use voltunnis_tests::fillings::holds_never;
use voltunnis_tests::generate::pieces::piece;
use voltunnis_tests::generate::random::Random;
use voltunnis_tests::generate::sheets::sheet;
use voltunnis_tests::generate::stock::Stock;
use voltunnis_tests::generate::trees::{piece_bytes, SheetTree, Term};
use voltunnis_tests::reference::{own_graph, piece::Piece, places::parent, sheet::Sheet};
use voltunnis_tests::results::Word;

#[test]
fn two_equal_rules_of_unknowns_ask_every_pair() {
    let mut random = Random::new(0x7061_6972);
    let mut asked = 0;
    for _ in 0..6_000 {
        let SheetTree { arity, rules } = sheet(&mut random);
        let Some(rule) = rules.into_iter().next() else { continue };
        let bytes = SheetTree { arity, rules: vec![rule; 2] }.bytes();
        let Ok(Sheet { tests, .. }) = Sheet::read(&bytes) else { continue };
        // Both rules have a pending test until none is left: the arguments' places, then all pairs.
        let places = tests.places.iter().map(|place| parent(*place).is_none());
        let expected = places.chain(tests.pairs.iter().map(|_| true)).enumerate();
        let wait = expected.fold(0, |set, (test, asked)| set | u64::from(asked) << test);
        let answer = walk_own(&bytes, &piece_bytes(&vec![Term::Unknown; usize::from(arity)]));
        assert_eq!((answer.walk.word, answer.wait), (Word::Suspend, wait), "{}", to_hex(&bytes));
        assert_eq!(u32::from(answer.walk.edges), wait.count_ones());
        asked += tests.pairs.len();
    }
    assert!(asked >= 2_000, "{asked} pairs");
}

/// The piece with its unknown of this number, counted from the first, as a reading that will never come.
fn given_up(terms: &[Term], left: &mut usize) -> Vec<Term> {
    let given = |term: &Term| match term {
        Term::Unknown if *left == 0 => {
            *left = usize::MAX;
            Term::Never
        }
        Term::Unknown => {
            *left -= 1;
            Term::Unknown
        }
        Term::Compound(id, arguments) => Term::Compound(*id, given_up(arguments, left)),
        other => other.clone(),
    };
    terms.iter().map(given).collect()
}

#[test]
fn an_unknown_may_become_one_and_that_is_filling_in_more() {
    let mut random = Random::new(0x6e65_7665);
    let mut count = Count::default();
    for _ in 0..12_000 {
        let tree = sheet(&mut random);
        let bytes = tree.bytes();
        let terms = piece(&mut random, &tree, Stock::FULL);
        let fits = terms.len() == usize::from(tree.arity) && Piece::read(&piece_bytes(&terms)).is_ok();
        if !fits || own_graph(&bytes).is_none() {
            continue;
        }
        let before = walk_own(&bytes, &piece_bytes(&terms)).walk;
        for unknown in 0..4 {
            let further = given_up(&terms, &mut unknown.clone());
            if further == terms {
                break;
            }
            let after = walk_own(&bytes, &piece_bytes(&further)).walk;
            let kept = (after.word, after.rule) == (before.word, before.rule);
            match before.word {
                Word::Commit | Word::Fail => assert!(kept, "{}", to_hex(&bytes)),
                Word::Execute => assert!(kept || after.word == Word::Fail, "{}", to_hex(&bytes)),
                Word::Suspend => {}
            }
            count.met(format!("{} {}", before.word.name(), after.word.name()));
            count.met(if terms.iter().any(holds_never) { "another" } else { "the first" });
        }
    }
    count.print();
    count.often(100, ["commit commit", "fail fail", "execute execute", "execute fail", "suspend suspend"]);
    count.often(50, ["suspend commit", "suspend execute", "suspend fail", "another", "the first"]);
}
