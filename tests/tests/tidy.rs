//! Tidy sheets (document 02, request 2): the shared vectors, examples, limits, questions and buffers; and 30,000
//! sheets, good, hostile and damaged.

use std::cmp::Ordering;
use voltunnis_tests::both::{self, lent, tidied};
use voltunnis_tests::bytes::{from_hex, to_hex};
use voltunnis_tests::count::Count;
use voltunnis_tests::generate::crowded::crowded;
use voltunnis_tests::generate::damage::{damaged, noise};
use voltunnis_tests::generate::disguise::disguise;
use voltunnis_tests::generate::hostile::hostile_sheet;
use voltunnis_tests::generate::random::Random;
use voltunnis_tests::generate::sheets::sheet;
use voltunnis_tests::generate::trees::{all, Pattern, SheetTree};
use voltunnis_tests::results::{Refusal, Written};

/// The vectors of request 2.
const VECTORS: &str = include_str!("../vectors/tidy.txt");

/// Tidies to a buffer of this length and is refused; no byte of it changes.
#[track_caller]
fn refused(sheet: &[u8], len: usize, refusal: Refusal) {
    let (result, buffer) = both::tidy(sheet, len);
    assert_eq!(result, Err(refusal), "{} to {len} bytes", to_hex(sheet));
    assert!(buffer == lent(len), "a byte changed on a refusal");
}

/// Tidies to a buffer with so many bytes more than this form needs; the bytes after it stay.
#[track_caller]
fn fits(sheet: &[u8], form: &[u8], more: usize) {
    let len = form.len() + more;
    let (result, buffer) = both::tidy(sheet, len);
    assert_eq!(result, Ok(Written { bytes: form.len() as u32 }), "{} to {len} bytes", to_hex(sheet));
    assert!(buffer[..form.len()] == *form, "other bytes than the tidy form");
    assert!(buffer[form.len()..] == lent(len)[form.len()..], "a byte after the tidy form");
}

#[test]
fn the_shared_vectors_are_met() {
    let mut count = 0;
    for line in VECTORS.lines() {
        let [_, call, said] = line.split('|').collect::<Vec<_>>()[..] else { panic!("not a vector: {line}") };
        let ["tidy", sheet, len] = call.split(' ').collect::<Vec<_>>()[..] else { panic!("no call: {call}") };
        let (result, buffer) = both::tidy(&from_hex(sheet), len.parse().expect("a length"));
        let bytes = result.expect("an accepted sheet").bytes as usize;
        assert_eq!(said, format!("ok {bytes} {}", to_hex(&buffer[..bytes])), "{call}");
        count += 1;
    }
    assert_eq!(count, 4);
}

#[test]
fn examples_have_their_tidy_form() {
    for (sheet, form) in [
        // Only what is repeated has a number.
        ("10 03 01 24 00 24 01 24 01", "10 03 01 20 24 00 24 00"),
        ("10 02 01 24 07 25 07 00 01 00 09", "10 02 01 25 00 00 01 00 09 25 00 00 01 00 09"),
        // A common range of one number, or of all, stays a range.
        ("10 02 01 25 03 00 05 00 05 24 03", "10 02 01 25 00 00 05 00 05 25 00 00 05 00 05"),
        ("10 02 01 25 03 00 01 00 05 25 03 00 05 00 09", "10 02 01 25 00 00 05 00 05 25 00 00 05 00 05"),
        ("10 01 01 25 04 00 00 ff ff", "10 01 01 22 00 00 ff ff"),
        // Variables are known within their rule only.
        ("10 02 02 24 05 24 05 24 09 24 09", "10 02 02 24 00 24 00 24 00 24 00"),
        ("10 01 02 24 05 24 05", "10 01 02 20 20"),
        // First appearance goes by prefix order.
        ("10 03 01 23 00 01 02 24 09 24 03 24 03 24 09", "10 03 01 23 00 01 02 24 00 24 01 24 01 24 00"),
        ("10 03 01 24 02 23 00 01 02 24 09 24 02 24 09", "10 03 01 24 00 23 00 01 02 24 01 24 00 24 01"),
        // Rules keep their order, and equal ones stay.
        ("10 01 03 21 00 02 21 00 01 21 00 02", "10 01 03 21 00 02 21 00 01 21 00 02"),
        ("10 08 00", "10 08 00"),
        ("10 01 01 21 00 01", "10 01 01 21 00 01"),
        ("10 01 01 21 00 02", "10 01 01 21 00 02"),
    ] {
        assert_eq!(to_hex(&tidied(&from_hex(sheet))), to_hex(&from_hex(form)), "{sheet}");
    }
}

/// A sheet of one rule with each of 16 variables twice, the highest first.
fn sixteen_twice() -> SheetTree {
    let four = |at: u8| Pattern::Compound(1, (0..4).map(|j| Pattern::Variable(15 - (at + j) % 16)).collect());
    SheetTree { arity: 8, rules: vec![(0..8).map(|a| four(4 * a)).collect()] }
}

#[test]
fn all_sixteen_variables_take_numbers() {
    let tree = sixteen_twice();
    assert_eq!(both::check_sheet(&tree.bytes()).map(|size| size.tests), Ok(24));
    let form = tidied(&tree.bytes());
    let (form, _) = SheetTree::read(&form).expect("a sheet");
    let numbers: Vec<u8> = all(&form.rules[0])
        .into_iter()
        .filter_map(|pattern| match pattern {
            Pattern::Variable(number) => Some(*number),
            _ => None,
        })
        .collect();
    assert_eq!(numbers, (0..16).chain(0..16).collect::<Vec<u8>>());
}

/// The longest tidy sheet: 64 compounds of 4 arguments in each of 64 rules. A test of any other sort adds fewer
/// bytes than a compound's 7.
fn longest() -> SheetTree {
    let four = |first: Pattern| Pattern::Compound(0xffff, [vec![first], vec![Pattern::Anything; 3]].concat());
    let deepest = four(Pattern::Anything);
    let second = |at: usize| if at < 24 { four(deepest.clone()) } else { deepest.clone() };
    let argument = |a: usize| Pattern::Compound(1, (0..4).map(|j| second(4 * a + j)).collect());
    SheetTree { arity: 8, rules: vec![(0..8).map(argument).collect(); 64] }
}

#[test]
fn the_longest_sheet_is_tidied() {
    let bytes = longest().bytes();
    assert_eq!(both::check_sheet(&bytes).map(|size| size.tests), Ok(64));
    assert_eq!(bytes.len(), 3 + 64 * 456);
    fits(&bytes, &bytes, 0);
    refused(&bytes, bytes.len() - 1, 31);
    let mut random = Random::new(0x6c6f_6e67);
    let disguised = disguise(&mut random, &longest()).bytes();
    assert!(disguised.len() > bytes.len() + 64 * 10);
    fits(&disguised, &bytes, 9);
    refused(&disguised, bytes.len() - 1, 31);
}

#[test]
fn question_31_comes_after_the_sheets_questions() {
    let deep = format!("10 01 01 {} 20", "23 00 01 01 ".repeat(4));
    let alike = [
        vec![0x10, 1, 1],
        [0x23, 0, 1, 4].to_vec(),
        [0x23, 0, 1, 4, 0x24, 0, 0x24, 0, 0x24, 0, 0x24, 0].repeat(4),
    ];
    for (sheet, refusal) in [
        (from_hex("11 01 00"), 1),
        (from_hex("10 09 00"), 2),
        (from_hex("10 01 41"), 3),
        (from_hex("10 01 01 26"), 4),
        (from_hex(&deep), 5),
        (from_hex("10 01 01 23 00 01 05"), 6),
        (from_hex("10 01 01 25 00 00 02 00 01"), 7),
        (from_hex("10 01 01 24 10"), 8),
        (from_hex("10 02 01 25 00 00 01 00 01 25 00 00 02 00 02"), 9),
        (from_hex("10 01 00 20"), 10),
        (alike.concat(), 11),
    ] {
        for len in [0, 1, 500] {
            refused(&sheet, len, refusal);
        }
    }
    refused(&from_hex("10 01 00"), 0, 31);
    refused(&from_hex("10 01 00"), 2, 31);
    fits(&from_hex("10 01 00"), &from_hex("10 01 00"), 0);
}

#[test]
fn buffers_of_every_length_are_kept_to() {
    let mut random = Random::new(0x6275_6666);
    let mut count = Count::default();
    for _ in 0..4_000 {
        let bytes = if random.percent(10) { crowded(&mut random) } else { sheet(&mut random) }.bytes();
        if both::check_sheet(&bytes).is_err() {
            continue;
        }
        let form = tidied(&bytes);
        count.met(match form.len().cmp(&bytes.len()) {
            Ordering::Less => "shorter",
            Ordering::Equal => "as long",
            Ordering::Greater => "longer",
        });
        for more in [0, 1, 64] {
            fits(&bytes, &form, more);
        }
        for len in [0, 1, random.below(form.len()), form.len() - 1] {
            refused(&bytes, len, 31);
        }
    }
    count.print();
    count.often(100, ["shorter", "as long", "longer"]);
}

/// A sheet: good, at or over a limit, damaged, or noise.
fn any_sheet(random: &mut Random) -> (&'static str, Vec<u8>) {
    let tree = if random.percent(15) { crowded(random) } else { sheet(random) };
    match random.below(10) {
        0..=2 => ("hostile", hostile_sheet(random, &tree)),
        3 | 4 => ("damaged", damaged(random, &tree.bytes())),
        5 => ("noise", noise(random, 0x10)),
        _ => ("good", tree.bytes()),
    }
}

#[test]
fn library_and_reference_agree_on_good_hostile_and_damaged_sheets() {
    let mut random = Random::new(0x7469_6479);
    let mut count = Count::default();
    for _ in 0..30_000 {
        let (kind, bytes) = any_sheet(&mut random);
        let len = match random.below(4) {
            0 => random.below(bytes.len() + 1),
            1 => bytes.len(),
            _ => 3 * bytes.len(),
        };
        let (result, buffer) = both::tidy(&bytes, len);
        let written = result.map_or(0, |written| written.bytes as usize);
        assert!(buffer[written..] == lent(len)[written..], "a byte after those written");
        let outcome =
            result.map_or_else(|refusal| format!("refused {refusal}"), |_| format!("{kind} tidied"));
        count.met(kind);
        count.met(outcome);
    }
    count.print();
    count.often(2_000, ["good", "hostile", "damaged", "noise", "good tidied", "refused 31"]);
    count.often(200, ["hostile tidied", "damaged tidied"]);
    count.often(20, (1..=11).map(|refusal| format!("refused {refusal}")));
}
