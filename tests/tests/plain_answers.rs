//! Plain answers by hand: document 01's example, its marked cases, its traps and the edges of what
//! a test means. Then question 20.

use voltunnis_tests::both::plain;
use voltunnis_tests::bytes::from_hex;
use voltunnis_tests::results::{Plain, Refusal, Word};

/// The answer, a word and a rule, of a sheet on a piece, without their headers' first bytes.
fn asked(sheet: &str, piece: &str) -> Result<(Word, u8), Refusal> {
    plain(&from_hex(sheet), &from_hex(piece)).map(|Plain { word, rule }| (word, rule))
}

use Word::{Commit, Execute, Fail, Suspend};

const EXAMPLE: &str = "10 02 02 24 00 24 00 21 00 01 21 00 02";

#[test]
fn the_example_answers_as_document_01_says() {
    for (piece, word, rule) in [
        ("11 02 31 00 01 31 00 02", Commit, 2),
        ("11 02 30 31 00 01", Execute, 1),
        ("11 02 30 30", Suspend, 0),
        ("11 02 31 00 03 31 00 04", Fail, 0),
    ] {
        assert_eq!(asked(EXAMPLE, piece), Ok((word, rule)), "{piece}");
    }
}

/// The rules (1,1,1), (2,1,1), (2,2,1), (2,2,2) in numbers.
fn four_rules() -> String {
    let number = |n| format!("22 00 0{n} 00 0{n}");
    let rule = |[a, b, c]: [u8; 3]| [number(a), number(b), number(c)].concat();
    let rules = [[1, 1, 1], [2, 1, 1], [2, 2, 1], [2, 2, 2]];
    format!("10 03 04 {}", rules.map(rule).concat())
}

#[test]
fn the_marked_cases_answer_as_document_01_says() {
    for (piece, word, rule) in [
        ("11 03 30 30 32 00 02", Execute, 4),
        ("11 03 32 00 02 30 32 00 01", Suspend, 0),
        ("11 03 32 00 01 30 30", Execute, 1),
        ("11 03 32 00 03 30 30", Fail, 0),
        ("11 03 32 00 01 32 00 02 32 00 01", Fail, 0),
    ] {
        assert_eq!(asked(&four_rules(), piece), Ok((word, rule)), "{piece}");
    }
}

#[test]
fn trap_a_rule_is_not_dropped_because_its_test_is_not_known() {
    let two = "10 01 02 21 00 01 21 00 02";
    assert_eq!(asked(two, "11 01 30"), Ok((Suspend, 0)));
    assert_eq!(asked("10 01 01 21 00 01", "11 01 30"), Ok((Execute, 1)));
}

#[test]
fn trap_one_rule_left_still_has_its_tests_made() {
    assert_eq!(asked(&four_rules(), "11 03 32 00 01 32 00 02 32 00 01"), Ok((Fail, 0)));
    assert_eq!(asked("10 01 01 21 00 01", "11 01 31 00 02"), Ok((Fail, 0)));
}

#[test]
fn trap_two_open_terms_are_not_equal() {
    let twice = "10 02 01 24 00 24 00";
    assert_eq!(asked(twice, "11 02 33 00 01 01 30 33 00 01 01 30"), Ok((Execute, 1)));
    assert_eq!(asked(twice, "11 02 33 00 01 01 30 33 00 02 01 30"), Ok((Fail, 0)));
    assert_eq!(asked(twice, "11 02 30 30"), Ok((Execute, 1)));
}

#[test]
fn trap_a_variable_links_all_its_places() {
    let thrice = "10 03 01 24 00 24 00 24 00";
    assert_eq!(asked(thrice, "11 03 32 00 01 30 32 00 02"), Ok((Fail, 0)));
    assert_eq!(asked(thrice, "11 03 32 00 01 30 32 00 01"), Ok((Execute, 1)));
    assert_eq!(asked(thrice, "11 03 32 00 01 32 00 01 32 00 01"), Ok((Commit, 1)));
}

#[test]
fn terms_differ_as_soon_as_one_pair_of_arguments_does() {
    let twice = "10 02 01 24 00 24 00";
    let f = |a: &str, b: &str| format!("33 00 01 02 {a} {b}");
    let piece = |a: String, b: String| format!("11 02 {a} {b}");
    let (one, two) = ("31 00 01", "31 00 02");
    for (left, right, word, rule) in [
        (f("30", one), f("30", two), Fail, 0),
        (f(one, "30"), f(two, "30"), Fail, 0),
        (f(one, "30"), f(one, "30"), Execute, 1),
        (f(one, two), f(one, two), Commit, 1),
        (f(one, two), f("30", two), Execute, 1),
        (f(one, one), "30".into(), Execute, 1),
        ("31 00 01".into(), "32 00 01".into(), Fail, 0),
        ("31 00 01".into(), "33 00 01 01 30".into(), Fail, 0),
        ("32 00 01".into(), "33 00 01 01 30".into(), Fail, 0),
        ("33 00 01 01 30".into(), f("30", "30"), Fail, 0),
        (f(one, "33 00 01 01 30"), f(one, "33 00 01 02 30 30"), Fail, 0),
        ("31 01 00".into(), "31 00 00".into(), Fail, 0),
    ] {
        let piece = piece(left, right);
        assert_eq!(asked(twice, &piece), Ok((word, rule)), "{piece}");
    }
}

#[test]
fn a_lacking_place_contradicts_and_one_below_an_unknown_is_not_known() {
    let inside = "10 01 01 23 00 01 02 20 21 00 05";
    assert_eq!(asked(inside, "11 01 30"), Ok((Execute, 1)));
    assert_eq!(asked(inside, "11 01 31 00 01"), Ok((Fail, 0)));
    assert_eq!(asked(inside, "11 01 33 00 01 01 30"), Ok((Fail, 0)));
    assert_eq!(asked(inside, "11 01 33 00 01 02 30 30"), Ok((Execute, 1)));
    assert_eq!(asked(inside, "11 01 33 00 01 02 30 31 00 05"), Ok((Commit, 1)));
    let across = "10 02 01 23 00 01 01 24 00 24 00";
    assert_eq!(asked(across, "11 02 30 31 00 01"), Ok((Execute, 1)));
    assert_eq!(asked(across, "11 02 33 00 01 01 31 00 02 31 00 01"), Ok((Fail, 0)));
    assert_eq!(asked(across, "11 02 31 00 07 30"), Ok((Fail, 0)));
}

#[test]
fn ranges_hold_at_their_ends_and_only_at_numbers() {
    let range = "10 01 01 22 00 ff 01 00";
    for (term, word) in [
        ("32 00 fe", Fail),
        ("32 00 ff", Commit),
        ("32 01 00", Commit),
        ("32 01 01", Fail),
        ("31 00 ff", Fail),
        ("33 00 ff 01 30", Fail),
    ] {
        let rule = u8::from(word == Commit);
        assert_eq!(asked(range, &format!("11 01 {term}")), Ok((word, rule)), "{term}");
    }
}

#[test]
fn a_ranged_variable_asks_the_common_part_at_all_its_places() {
    let sheet = "10 03 01 25 00 00 01 00 05 24 00 25 00 00 04 00 09";
    assert_eq!(asked(sheet, "11 03 30 32 00 03 30"), Ok((Fail, 0)));
    assert_eq!(asked(sheet, "11 03 30 32 00 04 30"), Ok((Execute, 1)));
    assert_eq!(asked(sheet, "11 03 30 31 00 04 30"), Ok((Fail, 0)));
    assert_eq!(asked(sheet, "11 03 32 00 05 32 00 05 32 00 05"), Ok((Commit, 1)));
    assert_eq!(asked(sheet, "11 03 32 00 06 30 30"), Ok((Fail, 0)));
}

#[test]
fn two_rules_that_hold_suspend_and_no_rule_fails() {
    assert_eq!(asked("10 01 02 20 20", "11 01 31 00 01"), Ok((Suspend, 0)));
    assert_eq!(asked("10 01 01 20", "11 01 30"), Ok((Commit, 1)));
    assert_eq!(asked("10 01 00", "11 01 30"), Ok((Fail, 0)));
}

#[test]
fn question_20_asks_for_equal_arities_after_sheet_and_piece() {
    assert_eq!(asked("10 01 00", "11 02 30 30"), Err(20));
    assert_eq!(asked("10 02 00", "11 01 30"), Err(20));
    assert_eq!(asked("10 01 00", "11 02 30 30 30"), Err(17));
    assert_eq!(asked("10 01 00 20", "11 02 30 30"), Err(10));
    assert_eq!(asked("", ""), Err(1));
    assert_eq!(asked("10 01 00", ""), Err(12));
}
