//! The questions at a sheet, 1 to 11: each at its exact limit, and which of two comes first.

use voltunnis_tests::both::check_sheet;
use voltunnis_tests::bytes::from_hex;
use voltunnis_tests::results::SheetSize;

#[track_caller]
fn refused(hex: &str, refusal: u8) {
    assert_eq!(check_sheet(&from_hex(hex)), Err(refusal), "{hex}");
}

#[track_caller]
fn accepted(hex: &str, arity: u8, rules: u8, tests: u8) {
    assert_eq!(check_sheet(&from_hex(hex)), Ok(SheetSize { arity, rules, tests }), "{hex}");
}

/// A sheet of one argument and one rule, whose pattern is this.
fn one(pattern: &str) -> String {
    format!("10 01 01 {pattern}")
}

/// A compound of id 1 with these arguments.
fn compound(arguments: &[&str]) -> String {
    format!("23 00 01 {:02x} {}", arguments.len(), arguments.concat())
}

#[test]
fn the_example_is_accepted() {
    accepted("10 02 02 24 00 24 00 21 00 01 21 00 02", 2, 2, 3);
}

#[test]
fn question_1_asks_for_a_whole_header() {
    for hex in ["", "10", "10 01", "11 01 00", "00 00 00", "ff"] {
        refused(hex, 1);
    }
    accepted("10 01 00", 1, 0, 0);
}

#[test]
fn question_2_asks_for_an_arity_of_1_to_8() {
    for hex in ["10 00 00", "10 09 00", "10 ff 00", "10 00 21", "10 00 01 20"] {
        refused(hex, 2);
    }
    accepted("10 08 00", 8, 0, 0);
    accepted("10 08 01 20 20 20 20 20 20 20 20", 8, 1, 0);
}

#[test]
fn question_3_asks_for_at_most_64_rules() {
    for rules in [32, 33, 63, 64] {
        accepted(&format!("10 01 {rules:02x} {}", "20".repeat(rules)), 1, rules as u8, 0);
    }
    refused(&format!("10 01 41 {}", "20".repeat(65)), 3);
    refused("10 01 41", 3);
    refused("10 01 40", 4);
    refused("10 01 ff", 3);
}

#[test]
fn question_4_asks_for_whole_records_of_kinds_20_to_27() {
    for kind in (0..=0xff).filter(|kind| !(0x20..=0x27).contains(kind)) {
        refused(&one(&format!("{kind:02x} 00 00 00 00 00 00")), 4);
    }
    for pattern in [
        "21 00 01",
        "22 00 01 00 02",
        "23 00 01 01",
        "23 00 01 01 20",
        "24 00",
        "25 00 00 01 00 02",
        "26 00 01 00 02",
        "27 00 00 01 00 02",
        "27 ff 00 01 00 02",
    ] {
        let bytes = from_hex(&one(pattern));
        for cut in 3..bytes.len() {
            assert_eq!(check_sheet(&bytes[..cut]), Err(4), "{pattern} cut to {cut}");
        }
    }
    refused("10 02 01 20", 4);
    refused("10 01 02 20", 4);
}

#[test]
fn question_5_asks_for_compounds_at_depth_3_at_most() {
    let leaf = "20".to_string();
    let at_depth_3 = compound(&[&compound(&[&compound(&[&leaf])])]);
    accepted(&one(&at_depth_3), 1, 1, 3);
    refused(&one(&compound(&[&at_depth_3])), 5);
}

#[test]
fn question_6_asks_for_a_compound_arity_of_1_to_4() {
    refused(&one("23 00 01 00"), 6);
    accepted(&one(&compound(&["20"])), 1, 1, 1);
    accepted(&one(&compound(&["20", "20", "20", "20"])), 1, 1, 1);
    refused(&one(&compound(&["20", "20", "20", "20", "20"])), 6);
    refused(&one("23 00 01 ff"), 6);
}

#[test]
fn question_7_asks_that_low_is_at_most_high() {
    accepted(&one("22 00 05 00 05"), 1, 1, 1);
    refused(&one("22 00 06 00 05"), 7);
    refused(&one("22 01 00 00 ff"), 7);
    accepted(&one("22 00 00 ff ff"), 1, 1, 1);
    accepted(&one("25 0f 00 05 00 05"), 1, 1, 1);
    refused(&one("25 0f ff ff 00 00"), 7);
    accepted(&one("26 00 05 00 05"), 1, 1, 1);
    refused(&one("26 00 06 00 05"), 7);
    refused(&one("26 01 00 00 ff"), 7);
    accepted(&one("26 00 00 ff ff"), 1, 1, 1);
    for gauge in ["00", "01", "ff"] {
        accepted(&one(&format!("27 {gauge} 00 05 00 05")), 1, 1, 1);
        accepted(&one(&format!("27 {gauge} 00 00 ff ff")), 1, 1, 1);
        refused(&one(&format!("27 {gauge} 00 06 00 05")), 7);
        refused(&one(&format!("27 {gauge} 01 00 00 ff")), 7);
    }
}

#[test]
fn question_8_asks_for_a_variable_of_0_to_15() {
    accepted(&one("24 0f"), 1, 1, 0);
    refused(&one("24 10"), 8);
    refused(&one("24 ff"), 8);
    accepted(&one("25 0f 00 00 ff ff"), 1, 1, 1);
    refused(&one("25 10 00 00 ff ff"), 8);
}

#[test]
fn question_9_asks_for_a_common_number_of_each_variable() {
    accepted("10 02 01 25 00 00 01 00 05 25 00 00 05 00 09", 2, 1, 3);
    refused("10 02 01 25 00 00 01 00 04 25 00 00 05 00 09", 9);
    accepted("10 02 01 25 00 00 01 00 04 25 01 00 05 00 09", 2, 1, 2);
    accepted("10 01 02 25 00 00 01 00 04 25 00 00 05 00 09", 1, 2, 1);
    // Each two of the three ranges have a common number exactly when all three have one.
    refused("10 03 01 25 00 00 01 00 05 25 00 00 02 00 08 25 00 00 06 00 09", 9);
    accepted("10 03 01 25 00 00 01 00 06 25 00 00 02 00 08 25 00 00 06 00 09", 3, 1, 6);
    // A record without a range stands between those with one.
    refused("10 03 01 25 07 00 01 00 01 24 07 25 07 00 02 00 02", 9);
}

#[test]
fn question_10_asks_that_no_bytes_are_left() {
    refused("10 01 00 20", 10);
    refused("10 01 01 20 20", 10);
    refused("10 02 02 24 00 24 00 21 00 01 21 00 02 00", 10);
}

#[test]
fn questions_come_record_by_record_in_number_order() {
    let three = |inside: &str| compound(&[&compound(&[&compound(&[inside])])]);
    // A whole compound at depth 4 of arity 0, and a cut one.
    refused(&one(&three("23 00 01 00")), 5);
    refused(&one(&three("23 00 01")), 4);
    refused(&one("25 10 00 02 00 01"), 7);
    refused("10 02 01 24 10 22 00 02 00 01", 8);
    refused("10 02 01 22 00 02 00 01 24 10", 7);
    refused("10 02 01 23 00 01 00 28", 6);
    refused("10 00 ff 28", 2);
    refused("10 02 01 27 01 00 02 00 01 28", 7);
    refused("10 02 01 27 01 00 01 00 02 28", 4);
}

#[test]
fn question_9_comes_before_the_next_rule() {
    let disjoint = "25 00 00 01 00 01 25 00 00 02 00 02";
    refused(&format!("10 02 02 {disjoint} 28"), 9);
    refused(&format!("10 02 02 {disjoint}"), 9);
    refused(&format!("10 02 01 {disjoint} 00"), 9);
    refused("10 03 01 25 00 00 01 00 01 25 00 00 02 00 02 28", 4);
}
