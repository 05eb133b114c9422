//! How many rules random sheets have: 33 to 64 often enough, in every generator of whole sheets.

use voltunnis_generate::calls::{Name, Role};
use voltunnis_generate::crowded::crowded;
use voltunnis_generate::random::Random;
use voltunnis_generate::sheets::sheet;
use voltunnis_generate::stream::Stream;
use voltunnis_generate::trees::SheetTree;

const SHEETS: usize = 4_000;

/// How many sheets there are of each number of rules, up to 64.
fn counts(sheets: impl Iterator<Item = SheetTree>) -> Vec<usize> {
    let mut counts = vec![0; 65];
    sheets.take(SHEETS).for_each(|sheet| counts[sheet.rules.len()] += 1);
    counts
}

/// The sheets of a generator.
fn made(make: fn(&mut Random) -> SheetTree) -> impl Iterator<Item = SheetTree> {
    let mut random = Random::new(9);
    std::iter::from_fn(move || Some(make(&mut random)))
}

/// The sheets of the stream of calls that have at most 64 rules and nothing behind them.
fn streamed() -> impl Iterator<Item = SheetTree> {
    Stream::new(9, |_, _| None).filter(|call| call.name() == Name::CheckSheet).filter_map(|call| {
        let (tree, behind) = SheetTree::read(call.argument(Role::Sheet)?)?;
        (tree.rules.len() <= 64 && behind.is_empty()).then_some(tree)
    })
}

#[test]
fn more_than_32_rules_come_often() {
    for (name, counts) in [
        ("sheets", counts(made(sheet))),
        ("crowded sheets", counts(made(crowded))),
        ("sheets of the stream", counts(streamed())),
    ] {
        let many: usize = counts[33..].iter().sum();
        println!("{many} of {SHEETS} {name} have 33 to 64 rules, {} of them 64", counts[64]);
        assert!(100 * many >= 15 * SHEETS, "{many} {name} of 33 to 64 rules");
        for rules in [32, 64] {
            assert!(counts[rules] >= 100, "{} {name} of {rules} rules", counts[rules]);
        }
        assert_eq!(counts.iter().sum::<usize>(), SHEETS, "{name}");
    }
}

#[test]
fn every_number_of_rules_comes() {
    assert!(counts(made(sheet)).iter().all(|sheets| *sheets > 0));
    assert!(counts(made(crowded))[33..].iter().all(|sheets| *sheets > 0));
}
