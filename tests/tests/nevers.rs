//! Readings that will never come (document 02, request 6): the shared vectors, what record 35 contradicts and differs
//! from, pairs that are asked beside unknowns, the neither edge, places below a 35, and wait lists.

use voltunnis_tests::both::{check_graph, plain, walk, walk_all, walk_own};
use voltunnis_tests::bytes::{from_hex, to_hex};
use voltunnis_tests::fillings;
use voltunnis_tests::generate::known;
use voltunnis_tests::generate::trees::{piece_bytes, read_piece, SheetTree, Term};
use voltunnis_tests::reference::own_graph;
use voltunnis_tests::request;
use voltunnis_tests::results::{GraphSize, Run};

/// The vectors of request 6.
const VECTORS: &str = include_str!("../vectors/nevers.txt");

#[test]
fn the_shared_vectors_are_met() {
    let calls: Vec<&str> = VECTORS.lines().map(|line| request::met(line, &["6"])).collect();
    let of = |name: &str| calls.iter().filter(|call| **call == name).count();
    assert_eq!((of("plain"), of("build"), of("listing"), calls.len()), (4, 1, 4, 9));
}

/// What the walk on the sheet's own graph says of a piece.
#[track_caller]
fn said(sheet: &str, piece: &str) -> String {
    walk_own(&from_hex(sheet), &from_hex(piece)).to_string()
}

const COMMIT: &str = "commit 1 0 0000000000000000";
const FAIL: &str = "fail 0 0 0000000000000000";

#[test]
fn it_contradicts_every_place_test() {
    let patterns = [
        "21 00 35",
        "26 00 00 ff ff",
        "22 00 00 ff ff",
        "23 00 01 01 20",
        "25 00 00 00 ff ff",
        "23 00 01 01 23 00 01 01 20",
    ];
    for pattern in patterns {
        assert_eq!(said(&format!("10 01 01 {pattern}"), "11 01 35"), FAIL, "{pattern}");
        // Inside a compound, with an unknown beside it.
        let inside = format!("10 01 01 23 00 07 02 {pattern} 20");
        let fails = pattern.starts_with("23 00 01 01 23");
        for part in ["35", "33 00 01 01 35"] {
            let expected = if part == "35" || !pattern.starts_with("23") || fails { FAIL } else { COMMIT };
            assert_eq!(said(&inside, &format!("11 01 33 00 07 02 {part} 30")), expected, "{pattern} {part}");
        }
    }
}

#[test]
fn where_nothing_is_asked_it_makes_no_difference() {
    for (sheet, piece) in [
        ("10 02 01 20 20", "11 02 35 35"),
        ("10 02 01 24 00 24 01", "11 02 35 35"),
        ("10 02 01 24 00 20", "11 02 33 00 01 01 35 30"),
        ("10 01 01 23 00 01 01 20", "11 01 33 00 01 01 35"),
        ("10 01 01 23 00 01 02 24 00 24 01", "11 01 33 00 01 02 35 35"),
    ] {
        assert_eq!(said(sheet, piece), COMMIT, "{sheet} {piece}");
    }
    assert_eq!(said("10 02 02 20 21 00 01 20 21 00 02", "11 02 35 30"), "suspend 0 1 0000000000000001");
}

#[test]
fn a_term_that_is_or_holds_it_differs_from_every_term() {
    let f = |parts: &[&str]| format!("33 00 01 {:02x} {}", parts.len(), parts.concat());
    let spoiled =
        ["35".into(), f(&["35"]), f(&["30", "35"]), f(&["35", "30"]), f(&[&f(&[&f(&["31 00 01", "35"])])])];
    let others = ["30", "31 00 01", "32 00 01", "34 00 01 00 09", "35"].map(String::from);
    let compounds =
        [f(&["30"]), f(&["31 00 01"]), f(&["30", "30"]), f(&[&f(&["30"])]), f(&[&f(&[&f(&["30", "30"])])])];
    for one in &spoiled {
        for other in others.iter().chain(&compounds).chain(&spoiled) {
            for (p, q) in [(one, other), (other, one)] {
                assert_eq!(said("10 02 01 24 00 24 00", &format!("11 02 {p} {q}")), FAIL, "{p} {q}");
                // A level deeper, beside an unknown that the two of them have.
                if p.matches("33").count() < 3 && q.matches("33").count() < 3 {
                    let piece = format!("11 02 {} {}", f(&["30", p]), f(&["30", q]));
                    assert_eq!(said("10 02 01 24 00 24 00", &piece), FAIL, "{piece}");
                }
            }
        }
    }
    // What holds none is compared as before.
    assert_eq!(said("10 02 01 24 00 24 00", "11 02 30 33 00 01 01 30"), "execute 1 0 0000000000000001");
    assert_eq!(said("10 03 01 24 00 24 00 20", "11 03 31 00 01 31 00 01 35"), COMMIT);
    assert_eq!(said("10 03 01 24 00 24 00 20", "11 03 30 31 00 01 35"), "execute 1 0 0000000000000001");
}

#[test]
fn unknown_settles_no_pair() {
    // (X, X) and (_, 2..3): argument 2 is asked, then the pair, whether or not argument 2 is unknown.
    let sheet = "10 02 02 24 00 24 00 20 22 00 02 00 03";
    assert_eq!(said(sheet, "11 02 35 30"), "execute 2 2 0000000000000001");
    assert_eq!(said(sheet, "11 02 30 30"), "suspend 0 2 0000000000000003");
    let graph = own_graph(&from_hex(sheet)).expect("a graph");
    let cases =
        "46 00 00 00 00 01 00 01 46 00 00 00 00 03 00 02 46 00 00 00 ff ff 00 02 46 00 00 02 00 03 00 02 \
                 46 00 00 02 ff ff 00 02 46 00 00 04 ff ff 00 01";
    let nodes = format!("43 00 55 00 06 00 01 00 02 {cases} 42 01 47 00 00 00 55 00 03 00 04 42 02 41");
    assert_eq!(to_hex(&graph), to_hex(&from_hex(&format!("12 02 02 00 05 {nodes}"))));
    // (Y, Y), (X in 2..2, Y) and (_, f(Y)): neither at argument 1, unknown at argument 2, then the pair says no.
    let three = "10 02 03 24 01 24 01 25 00 00 02 00 02 24 01 20 23 00 01 01 24 01";
    assert_eq!(said(three, "11 02 35 30"), "execute 3 3 0000000000000002");
    assert_eq!(said(three, "11 02 30 30"), "suspend 0 2 0000000000000003");
    // (f(X), X), (_, _): a pair below the unknown is asked too.
    let below = "10 02 02 23 00 01 01 24 00 24 00 20 20";
    assert_eq!(said(below, "11 02 30 35"), "commit 2 2 0000000000000000");
    assert_eq!(said(below, "11 02 30 33 00 01 01 35"), "commit 2 2 0000000000000000");
    assert_eq!(said(below, "11 02 30 30"), "suspend 0 2 0000000000000003");
}

#[test]
fn at_a_switch_it_takes_the_neither_edge() {
    // Cases for all symbols, a compound and all numbers: fail; neither: execute 2; unknown: suspend.
    let sheet = "10 01 02 22 00 00 ff ff 20";
    let cases = "44 00 00 ff ff 00 01 45 00 01 01 00 01 46 00 00 00 ff ff 00 01";
    let graph = format!("12 01 02 00 04 43 00 00 00 03 00 02 00 03 {cases} 40 42 02 41");
    let (sheet, graph) = (from_hex(sheet), from_hex(&graph));
    assert_eq!(check_graph(&sheet, &graph), Ok(GraphSize { nodes: 4 }));
    let line = |piece: &str| walk(&sheet, &graph, &from_hex(piece)).expect("an answer").to_string();
    assert_eq!(line("11 01 35"), "commit 2 1 0000000000000000");
    assert_eq!(line("11 01 30"), "suspend 0 1 0000000000000001");
    for known in ["31 35 35", "32 00 35", "34 00 00 ff ff", "33 00 01 01 35"] {
        assert_eq!(line(&format!("11 01 {known}")), "fail 0 1 0000000000000000", "{known}");
    }
    assert_eq!(line("11 01 33 00 01 02 35 35"), "commit 2 1 0000000000000000");
}

#[test]
fn a_place_below_it_is_treated_as_it_is_by_question_27_too() {
    let line = |sheet: &str, graph: &str, piece: &str| {
        walk(&from_hex(sheet), &from_hex(graph), &from_hex(piece)).map(|answer| answer.to_string())
    };
    // (f(1)) and (_), and a graph that asks the part at once: a symbol is fail, neither execute 2, unknown suspend.
    let inside = "10 01 02 23 00 01 01 21 00 01 20";
    let part = "12 01 02 00 04 43 00 01 00 01 00 02 00 03 44 00 00 ff ff 00 01 40 42 02 41";
    assert_eq!(line(inside, part, "11 01 35"), Ok("commit 2 1 0000000000000000".into()));
    assert_eq!(line(inside, part, "11 01 33 00 07 01 35"), Ok("commit 2 1 0000000000000000".into()));
    assert_eq!(line(inside, part, "11 01 33 00 07 01 31 00 35"), Ok("fail 0 1 0000000000000000".into()));
    assert_eq!(line(inside, part, "11 01 30"), Ok("suspend 0 1 0000000000000002".into()));
    assert_eq!(line(inside, part, "11 01 31 00 01"), Err(27));
    assert_eq!(line(inside, part, "11 01 34 00 00 00 35"), Err(27));
    // (f(f(f(X))), X) asks the pair of the deepest place and argument 2 at once: no is fail, other suspend.
    let deep = "10 02 01 23 00 01 01 23 00 01 01 23 00 01 01 24 00 24 00";
    let pair = "12 02 01 00 03 47 00 03 00 55 00 01 00 02 40 41";
    let differ = Ok("fail 0 1 0000000000000000".to_string());
    for above in
        ["35", "33 00 01 01 35", "33 00 01 01 33 00 01 01 35", "33 00 01 01 33 00 01 01 33 00 01 01 35"]
    {
        for other in ["35", "30", "31 00 01", "33 00 01 01 35"] {
            assert_eq!(line(deep, pair, &format!("11 02 {above} {other}")), differ, "{above} {other}");
        }
    }
    assert_eq!(line(deep, pair, "11 02 30 30"), Ok("suspend 0 1 0000000000000008".into()));
    assert_eq!(line(deep, pair, "11 02 30 35"), differ);
    // A place that the piece lacks is refused, whatever stands at the other.
    assert_eq!(line(deep, pair, "11 02 31 00 01 35"), Err(27));
    assert_eq!(line(deep, pair, "11 02 33 00 01 01 31 00 01 30"), Err(27));
}

#[test]
fn a_wait_list_holds_neither_its_place_nor_its_pairs() {
    // (1, _), (_, _) and (_, 1): argument 1 is a 35, argument 2 unknown.
    let sheet = "10 02 03 21 00 01 20 20 20 20 21 00 01";
    assert_eq!(said(sheet, "11 02 35 30"), "suspend 0 2 0000000000000002");
    assert_eq!(said(sheet, "11 02 30 30"), "suspend 0 1 0000000000000001");
    // (X, X, Y, Y), (Z, _, _, Z) and (_, _, _, _): the pairs are tests 0 (of 1 and 2), 1 (of 1 and 4) and 2.
    let pairs = "10 04 03 24 00 24 00 24 01 24 01 24 02 20 20 24 02 20 20 20 20";
    assert_eq!(said(pairs, "11 04 30 30 30 30"), "suspend 0 2 0000000000000003");
    assert_eq!(said(pairs, "11 04 30 35 30 30"), "suspend 0 2 0000000000000002");
    assert_eq!(said(pairs, "11 04 30 30 35 30"), "suspend 0 2 0000000000000003");
    assert_eq!(said(pairs, "11 04 30 35 30 35"), "commit 3 2 0000000000000000");
}

#[test]
fn the_run_of_many_pieces_forgets_it() {
    let sheet = known::example();
    let graph = own_graph(&sheet).expect("a graph");
    let pieces =
        from_hex("11 02 30 35 11 02 30 30 11 02 33 00 01 01 35 30 11 02 33 00 01 01 30 30 11 02 35 35");
    let (run, results) = walk_all(&sheet, &graph, &pieces, 100);
    assert_eq!(run, Ok(Run { results: 5, bytes: pieces.len() as u32 }));
    let expected = [
        "00040002000000000000000000000000",
        "00030003000000000000000000000007",
        "00040001000000000000000000000000",
        "00020101000000000000000000000004",
        "00040001000000000000000000000000",
    ];
    assert_eq!(to_hex(&results[..80]), expected.concat());
}

#[test]
fn the_traps_are_answered_as_over_fillings() {
    for (sheet, piece) in [
        ("10020124002400", "11023535"),
        ("1002012020", "11023535"),
        ("10020124002400", "1102303300010135"),
        ("10020224002400202200020003", "11023530"),
        ("10020324012401250000020002240120230001012401", "11023530"),
        ("1002022200020002240124002400", "11023035"),
    ] {
        let (sheet, piece) = (from_hex(sheet), from_hex(piece));
        let tree = SheetTree::read(&sheet).map(|(tree, _)| tree).expect("a sheet");
        let terms = read_piece(&piece).map(|(terms, _)| terms).expect("a piece");
        let answer = fillings::answer(&tree, &terms, 100_000).expect("few fillings");
        assert_eq!(plain(&sheet, &piece), Ok(answer), "{}", to_hex(&sheet));
    }
}

#[test]
fn all_28_pairs_of_eight_unknowns_are_asked() {
    let sheet = known::eight_alike();
    let mut terms = vec![Term::Unknown; 8];
    // The 8 places, then the pairs.
    assert_eq!(walk_own(&sheet, &piece_bytes(&terms)).to_string(), "suspend 0 36 0000000fffffffff");
    // The last will never come: neither drops rule 2, and rule 1's pairs with it are contradicted.
    terms[7] = Term::Never;
    assert_eq!(walk_own(&sheet, &piece_bytes(&terms)).to_string(), "fail 0 8 0000000000000000");
}
