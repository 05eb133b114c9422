//! The questions at a piece, 12 to 17 and 32: each at its exact limit, and which of two comes first.
//! Then pieces that stand one after another, each ending with its last term.

use voltunnis_tests::both::check_piece;
use voltunnis_tests::bytes::from_hex;
use voltunnis_tests::reference::piece::Piece;
use voltunnis_tests::results::PieceSize;

#[track_caller]
fn refused(hex: &str, refusal: u8) {
    assert_eq!(check_piece(&from_hex(hex)), Err(refusal), "{hex}");
}

#[track_caller]
fn accepted(hex: &str, arity: u8) {
    assert_eq!(check_piece(&from_hex(hex)), Ok(PieceSize { arity }), "{hex}");
}

/// A piece of one term.
fn one(term: &str) -> String {
    format!("11 01 {term}")
}

/// A compound of id 1 with these arguments.
fn compound(arguments: &[&str]) -> String {
    format!("33 00 01 {:02x} {}", arguments.len(), arguments.concat())
}

#[test]
fn question_12_asks_for_a_whole_header() {
    for hex in ["", "11", "10 01 30", "00 01", "ff"] {
        refused(hex, 12);
    }
}

#[test]
fn question_13_asks_for_an_arity_of_1_to_8() {
    for hex in ["11 00", "11 09", "11 ff", "11 00 30"] {
        refused(hex, 13);
    }
    for arity in 1..=8 {
        accepted(&format!("11 {arity:02x} {}", "30".repeat(usize::from(arity))), arity);
    }
}

#[test]
fn question_14_asks_for_whole_records_of_kinds_30_to_36() {
    for kind in (0..=0xff).filter(|kind| !(0x30..=0x36).contains(kind)) {
        refused(&one(&format!("{kind:02x} 00 00 00 00 00")), 14);
    }
    let span = "33 00 01 02 30 34 00 01 00 02";
    let never = "33 00 01 02 35 33 00 02 01 35";
    for term in [
        "31 00 01",
        "32 00 01",
        "34 00 01 00 02",
        "33 00 01 01 30",
        "33 00 01 02 30 31 00 01",
        span,
        never,
        "35",
        "36 00 00 01",
        "36 ff ff ff",
        "33 00 01 02 36 01 00 05 30",
    ] {
        let bytes = from_hex(&one(term));
        assert_eq!(check_piece(&bytes), Ok(PieceSize { arity: 1 }));
        for cut in 2..bytes.len() {
            assert_eq!(check_piece(&bytes[..cut]), Err(14), "{term} cut to {cut}");
        }
    }
    refused("11 02 30", 14);
    refused("11 02 35", 14);
}

#[test]
fn record_35_has_no_body() {
    accepted("11 01 35", 1);
    accepted("11 03 35 30 35", 3);
    refused("11 01 35 00", 17);
    refused("11 01 35 35", 17);
    refused("11 02 35 00 01", 14);
    refused("11 09 35", 13);
    // At every depth, the deepest too.
    let mut term = "35".to_string();
    for _ in 0..3 {
        accepted(&one(&term), 1);
        term = compound(&[&term[..]; 4]);
        accepted(&one(&term), 1);
    }
    refused(&one(&compound(&[&term])), 15);
    // A compound of 35s has 1 to 4 of them.
    refused(&one("33 00 01 00 35"), 16);
    refused(&one(&compound(&["35"; 5])), 16);
}

#[test]
fn record_36_has_a_gauge_and_a_wide_value() {
    for gauge in ["00", "01", "30", "80", "ff"] {
        for value in ["00 00", "00 ff", "01 00", "36 36", "ff ff"] {
            accepted(&format!("11 01 36 {gauge} {value}"), 1);
            accepted(&format!("11 03 30 36 {gauge} {value} 35"), 3);
            refused(&format!("11 01 36 {gauge} {value} 00"), 17);
            refused(&format!("11 02 36 {gauge} {value}"), 14);
        }
    }
    // At every depth, the deepest too.
    let mut term = "36 01 00 05".to_string();
    for _ in 0..3 {
        term = compound(&[&term[..]; 4]);
        accepted(&one(&term), 1);
    }
    refused(&one(&compound(&[&term])), 15);
}

#[test]
fn question_15_asks_for_compounds_at_depth_3_at_most() {
    let at_depth_3 = compound(&[&compound(&[&compound(&["30"])])]);
    accepted(&one(&at_depth_3), 1);
    refused(&one(&compound(&[&at_depth_3])), 15);
}

#[test]
fn question_16_asks_for_a_compound_arity_of_1_to_4() {
    refused(&one("33 00 01 00"), 16);
    accepted(&one(&compound(&["30"; 1])), 1);
    accepted(&one(&compound(&["30"; 4])), 1);
    refused(&one(&compound(&["30"; 5])), 16);
    refused("11 01 33 00 01 05", 16);
}

#[test]
fn question_17_asks_that_no_bytes_are_left() {
    refused("11 01 30 30", 17);
    refused("11 02 31 00 01 32 00 01 11", 17);
}

#[test]
fn question_32_asks_that_low_is_at_most_high() {
    for (low, high) in [("00 02", "00 01"), ("01 00", "00 ff"), ("ff ff", "00 00"), ("00 01", "00 00")] {
        refused(&one(&format!("34 {low} {high}")), 32);
        accepted(&one(&format!("34 {high} {low}")), 1);
        accepted(&one(&format!("34 {low} {low}")), 1);
        refused(&one(&compound(&["30", &format!("34 {low} {high}")])), 32);
    }
    accepted(&one("34 00 00 ff ff"), 1);
    // It comes after 16 at a term, and before the next term's 14.
    let wrong = "34 00 02 00 01";
    refused("11 01 33 00 01 05 34 00 02 00 01", 16);
    refused(&format!("11 02 {wrong} ff"), 32);
    refused(&format!("11 02 {wrong}"), 32);
    refused(&format!("11 02 ff {wrong}"), 14);
    refused(&format!("11 01 {wrong} 00"), 32);
    refused(&format!("11 02 {wrong} 33 00 01 00"), 32);
    refused(&format!("11 02 33 00 01 00 {wrong}"), 16);
    refused("11 01 34 00 02 00", 14);
    // A span may stand at the deepest depth, where a compound may not.
    let three = |inside: &str| compound(&[&compound(&[&compound(&[inside])])]);
    accepted(&one(&three("34 00 01 00 02")), 1);
    refused(&one(&three(wrong)), 32);
}

#[test]
fn questions_come_term_by_term_in_number_order() {
    let three = |inside: &str| compound(&[&compound(&[&compound(&[inside])])]);
    refused(&one(&three("33 00 01 00")), 15);
    refused(&one(&three("33 00 01")), 14);
    refused("11 02 33 00 01 00 37", 16);
    refused("11 02 37 33 00 01 00", 14);
    refused("11 02 35 33 00 01 00", 16);
    refused("11 02 36 01 00 05 33 00 01 00", 16);
    refused("11 00 37", 13);
}

#[test]
fn a_piece_of_full_depth_is_accepted() {
    let mut term = "34 ff fe ff ff".to_string();
    for _ in 0..3 {
        term = compound(&[&term[..]; 4]);
    }
    let bytes = from_hex(&format!("11 08 {}", term.repeat(8)));
    assert_eq!(bytes.len(), 3234);
    assert_eq!(check_piece(&bytes), Ok(PieceSize { arity: 8 }));
    for cut in 2..bytes.len() {
        assert_eq!(check_piece(&bytes[..cut]), Err(14), "cut to {cut}");
    }
}

#[test]
fn the_first_of_several_pieces_ends_with_its_last_term() {
    let pieces =
        ["11 01 30", "11 02 33 00 01 02 30 31 00 02 32 00 03", "11 01 34 11 01 11 01", "11 01 31 11 01"];
    let all = from_hex(&pieces.concat());
    let mut at = 0;
    for piece in pieces.map(from_hex) {
        let Ok((read, used)) = Piece::read_first(&all[at..]) else {
            panic!("the piece at {at} is accepted");
        };
        assert_eq!(used, piece.len());
        assert_eq!(check_piece(&all[at..at + used]), Ok(PieceSize { arity: read.arity }));
        at += used;
    }
    assert_eq!(at, all.len());
    assert_eq!(Piece::read_first(&all[at..]).err(), Some(12));
    assert_eq!(Piece::read_first(&from_hex("11 02 30 11 01 30")).err(), Some(14));
}
