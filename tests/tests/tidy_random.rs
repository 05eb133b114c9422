//! Tidy sheets over random ones (document 02, request 2): all writings with the same tests have one form, others
//! another; a tidy sheet stays as it is, and has the same graph and the same answers.

use voltunnis_tests::both::{self, enough, tidied};
use voltunnis_tests::bytes::to_hex;
use voltunnis_tests::count::Count;
use voltunnis_tests::generate::crowded::crowded;
use voltunnis_tests::generate::disguise::{disguise, near_miss, Change};
use voltunnis_tests::generate::pieces::piece;
use voltunnis_tests::generate::random::Random;
use voltunnis_tests::generate::sheets::{sheet, small_sheet};
use voltunnis_tests::generate::stock::Stock;
use voltunnis_tests::generate::trees::{all, piece_bytes, Pattern, SheetTree};
use voltunnis_tests::generate::variables::variables;
use voltunnis_tests::reference::sheet::{Sheet, Want};
use voltunnis_tests::results::Word;
use voltunnis_tests::voltunnis;

/// An accepted sheet at random: few rules, of all sorts, or close to 64 tests.
fn accepted(random: &mut Random) -> SheetTree {
    loop {
        let tree = match random.below(10) {
            0 => crowded(random),
            1..=3 => small_sheet(random, Stock::FULL),
            _ => sheet(random),
        };
        if Sheet::read(&tree.bytes()).is_ok() {
            return tree;
        }
    }
}

/// Rule for rule the tests with what is wanted, and the arity; none if the sheet is refused.
type Tests = (u8, Vec<(Vec<(u16, Want)>, Vec<(u16, u16)>)>);

fn tests(sheet: &SheetTree) -> Option<Tests> {
    let Sheet { arity, rules, .. } = Sheet::read(&sheet.bytes()).ok()?;
    Some((arity, rules.into_iter().map(|rule| (rule.wants, rule.pairs)).collect()))
}

/// What became of a record of a sheet in disguise.
fn becomes(rule: &[Pattern], before: &Pattern, after: &Pattern) -> &'static str {
    let places = |number: &u8| variables(rule)[number].places;
    match (before, after) {
        (Pattern::Anything, Pattern::Variable(_)) => "anything named",
        (Pattern::Range(..), Pattern::Ranged(..)) => "range named",
        (Pattern::Symbol(_), Pattern::Series(..)) => "symbol as a series",
        (Pattern::Series(..), Pattern::Symbol(_)) => "series as a symbol",
        (Pattern::Range(..), Pattern::Gauged(0, ..)) => "gauge named",
        (Pattern::Gauged(0, ..), Pattern::Range(..)) => "gauge dropped",
        (Pattern::Variable(_), Pattern::Anything) | (Pattern::Ranged(..), Pattern::Range(..)) => {
            "name dropped"
        }
        (Pattern::Variable(number), Pattern::Ranged(..)) if places(number) > 1 => "range added",
        (Pattern::Ranged(number, ..), Pattern::Variable(_)) if places(number) > 1 => "range dropped",
        (Pattern::Ranged(number, low, high), Pattern::Ranged(_, l, h)) if places(number) > 1 => {
            match (low == l, high == h) {
                (true, true) => "range as it was",
                _ => "range moved",
            }
        }
        (Pattern::Variable(number), Pattern::Variable(other)) if places(number) > 1 && number != other => {
            "other number"
        }
        _ => "other",
    }
}

#[test]
fn sheets_in_disguise_have_one_form() {
    let mut random = Random::new(0x6469_7367);
    let mut count = Count::default();
    for _ in 0..10_000 {
        let tree = accepted(&mut random);
        let form = tidied(&tree.bytes());
        for _ in 0..3 {
            let other = disguise(&mut random, &tree);
            assert_eq!(to_hex(&tidied(&other.bytes())), to_hex(&form), "{}", to_hex(&other.bytes()));
            count.met(if other == tree { "same bytes" } else { "other bytes" });
            for (rule, disguised) in tree.rules.iter().zip(&other.rules) {
                for (before, after) in all(rule).into_iter().zip(all(disguised)) {
                    count.met(becomes(rule, before, after));
                }
            }
        }
    }
    count.print();
    count.often(20_000, ["other bytes"]);
    let kinds = ["anything named", "range named", "name dropped", "range added", "range dropped"];
    count.often(2_000, kinds.into_iter().chain(["range moved", "other number", "symbol as a series"]));
    count.often(2_000, ["gauge named"]);
    count.often(500, ["series as a symbol", "gauge dropped"]);
}

#[test]
fn near_misses_differ_exactly_when_their_tests_do() {
    let mut random = Random::new(0x6e65_6172);
    let mut count = Count::default();
    for _ in 0..10_000 {
        let tree = accepted(&mut random);
        let (wanted, form) = (tests(&tree).expect("an accepted sheet"), tidied(&tree.bytes()));
        let other = disguise(&mut random, &tree);
        for change in Change::ALL {
            let Some(miss) = near_miss(&mut random, &other, change) else { continue };
            let Some(asked) = tests(&miss) else {
                count.met(format!("{change:?} refused"));
                continue;
            };
            let same = asked == wanted;
            assert_eq!(tidied(&miss.bytes()) == form, same, "{change:?}: {}", to_hex(&miss.bytes()));
            count.met(format!("{change:?} {}", if same { "alike" } else { "apart" }));
        }
    }
    count.print();
    count.often(1_000, ["Want apart", "End apart", "Pair apart", "Pair alike", "Gauge apart", "Gauge alike"]);
    count.often(300, ["VariableEnd apart", "VariableEnd alike"]);
}

/// The sheet with two neighbouring rules exchanged, one rule left out, or an argument more.
fn rearranged(random: &mut Random, sheet: &SheetTree) -> SheetTree {
    let mut sheet = sheet.clone();
    let at = random.below(sheet.rules.len().max(1));
    match random.below(3) {
        0 if at + 1 < sheet.rules.len() => sheet.rules.swap(at, at + 1),
        1 if at < sheet.rules.len() => drop(sheet.rules.remove(at)),
        _ => {
            sheet.arity = sheet.arity % 8 + 1;
            let arity = usize::from(sheet.arity);
            sheet.rules.iter_mut().for_each(|rule| rule.resize(arity, Pattern::Anything));
        }
    }
    sheet
}

#[test]
fn order_count_and_arity_of_rules_are_kept() {
    let mut random = Random::new(0x6f72_6465);
    let mut count = Count::default();
    for _ in 0..5_000 {
        let tree = accepted(&mut random);
        let other = disguise(&mut random, &tree);
        let other = rearranged(&mut random, &other);
        let Some(asked) = tests(&other) else { continue };
        let same = Some(asked) == tests(&tree);
        assert_eq!(tidied(&other.bytes()) == tidied(&tree.bytes()), same, "{}", to_hex(&other.bytes()));
        count.met(if same { "alike" } else { "apart" });
    }
    count.print();
    count.often(20, ["alike"]);
    count.often(3_000, ["apart"]);
}

#[test]
fn tidying_a_tidy_sheet_changes_no_byte() {
    let mut random = Random::new(0x7477_6963);
    let mut count = Count::default();
    for _ in 0..10_000 {
        let bytes = accepted(&mut random).bytes();
        let form = tidied(&bytes);
        assert_eq!(to_hex(&tidied(&form)), to_hex(&form), "{}", to_hex(&bytes));
        assert_eq!(both::check_sheet(&form), both::check_sheet(&bytes), "{}", to_hex(&bytes));
        count.met(if form == bytes { "tidy before" } else { "changed" });
    }
    count.print();
    count.often(1_000, ["tidy before", "changed"]);
}

#[test]
fn the_tidy_sheet_has_the_same_graph_and_the_same_answers() {
    let mut random = Random::new(0x6772_6166);
    let mut count = Count::default();
    for _ in 0..5_000 {
        let tree = accepted(&mut random);
        let bytes = disguise(&mut random, &tree).bytes();
        let form = tidied(&bytes);
        let len = enough(&bytes, None);
        let (mut one, mut two) = (vec![0; len], vec![0; len]);
        let built = voltunnis::build(&bytes, &mut one);
        assert_eq!(voltunnis::build(&form, &mut two), built, "{}", to_hex(&bytes));
        let size = built.map_or(0, |built| built.bytes as usize);
        assert!(one[..size] == two[..size], "another graph: {}", to_hex(&bytes));
        count.met(built.map_or("no graph", |_| "graph"));
        for _ in 0..3 {
            let piece = piece_bytes(&piece(&mut random, &tree, Stock::FULL));
            let answer = voltunnis::plain(&bytes, &piece);
            assert_eq!(voltunnis::plain(&form, &piece), answer, "{} on {}", to_hex(&bytes), to_hex(&piece));
            if let Ok(answer) = answer {
                count.met(answer.word);
            }
        }
    }
    count.print();
    count.often(3_000, ["graph"]);
    count.often(20, ["no graph"]);
    count.often(500, [Word::Commit, Word::Execute, Word::Suspend, Word::Fail]);
}
