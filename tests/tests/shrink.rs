//! A call made smaller: from random calls that a question refuses to the smallest that it refuses.

use voltunnis_tests::generate::calls::{Call, Name, Role};
use voltunnis_tests::generate::shrink::smallest;
use voltunnis_tests::generate::stream::Stream;
use voltunnis_tests::reference::{self, graph_in, track};

/// The refusal of a call, 0 if it is answered.
fn refusal(call: &Call) -> u8 {
    let of = |role| call.argument(role).unwrap_or_default();
    let (sheet, piece, graph) = (of(Role::Sheet), of(Role::Piece), of(Role::Graph));
    let (order, mut buffer) = (of(Role::Order), of(Role::Buffer).to_vec());
    let said = match call.name() {
        Name::CheckSheet => reference::check_sheet(sheet).map(drop),
        Name::CheckPiece => reference::check_piece(piece).map(drop),
        Name::CheckOrder => reference::check_order(order),
        Name::Plain => reference::plain(sheet, piece).map(drop),
        Name::CheckGraph => reference::check_graph(sheet, graph).map(drop),
        Name::Tidy => reference::tidy(sheet, &mut buffer).map(drop),
        Name::Order => reference::order(of(Role::Positions), &mut buffer).map(drop),
        Name::Build => reference::build(sheet, &mut buffer).map(drop),
        Name::BuildOrdered => reference::build_ordered(sheet, order, &mut buffer).map(drop),
        Name::Rewrite => reference::rewrite(sheet, graph, &mut buffer).map(drop),
        Name::Walk => reference::walk(sheet, graph, piece).map(drop),
        Name::WalkAll => reference::walk_all(sheet, graph, of(Role::Pieces), &mut buffer).map(drop),
    };
    said.err().unwrap_or(0)
}

/// The smallest calls that each question refuses.
const SMALLEST: [(u8, &[&str]); 28] = [
    (1, &["check_sheet -"]),
    (2, &["check_sheet 100000"]),
    (3, &["check_sheet 100141"]),
    (4, &["check_sheet 100101"]),
    (5, &["check_sheet 10010123000001230000012300000123000000"]),
    (6, &["check_sheet 10010123000000"]),
    (7, &["check_sheet 1001012200010000"]),
    (8, &["check_sheet 1001012410"]),
    (9, &["check_sheet 100201250000000000250000010001", "check_sheet 100201250000010001250000000000"]),
    (10, &["check_sheet 10010000"]),
    (12, &["check_piece -"]),
    (13, &["check_piece 1100"]),
    (14, &["check_piece 1101"]),
    (15, &["check_piece 110133000001330000013300000133000000"]),
    (16, &["check_piece 110133000000"]),
    (17, &["check_piece 11013000"]),
    (19, &["build 100100 -"]),
    (20, &["plain 100100 11023030", "plain 100200 110130"]),
    (21, &["check_graph 100100 -"]),
    (22, &["check_graph 100100 1201000001", "check_graph 100100 1201000100"]),
    (23, &["check_graph 100100 12010000014200"]),
    (
        24,
        &[
            "check_graph 100101210000 120101000143000000010000000044000100000000",
            "check_graph 100101210000 12010100014300000001000000004600000100000000",
            "check_graph 100101210000 1201010001430000000200000000450000000000450000000000",
        ],
    ),
    (25, &["check_graph 100100 12010000014000"]),
    (
        26,
        &[
            "walk 100101210000 1201010001430000000100000000450000000000 110130",
            "walk 10020124002400 1202010001470000005500000000 11023030",
        ],
    ),
    (
        27,
        &[
            "walk 1001012300000224002400 1201010001470001001600000000 1101310000",
            "walk 10010123000001210000 1201010001430001000100000000450000000000 1101310000",
            "walk 1002012400230000012400 1202010001470000005600000000 110230310000",
            "walk 1002012300000124002400 1202010001470001005500000000 110231000030",
            "walk 100201230000012400250000000000 1202010001430001000100000000450000000000 110231000030",
        ],
    ),
    (31, &["tidy 100100 -"]),
    (32, &["check_piece 11013400010000"]),
    (37, &["order - -"]),
];

/// Calls of the stream that this question refuses.
fn refused(number: u8) -> impl Iterator<Item = Call> {
    Stream::new(u64::from(number), graph_in).filter(move |call| refusal(call) == number)
}

#[test]
fn every_refusal_comes_down_to_its_smallest_call() {
    for (number, wanted) in SMALLEST {
        for call in refused(number).take(6) {
            let small = smallest(&call, &graph_in, &mut |call| refusal(call) == number, 20_000);
            assert!(wanted.contains(&small.to_string().as_str()), "{number}: {small} from {call}");
        }
    }
}

#[test]
fn sheets_that_must_be_large_come_down_too() {
    for (number, most) in [(11, 250), (18, 600)] {
        for call in refused(number).filter(|call| call.argument(Role::Order).is_none()).take(6) {
            let small = smallest(&call, &graph_in, &mut |call| refusal(call) == number, 20_000);
            let length = small.argument(Role::Sheet).map_or(0, <[u8]>::len);
            assert!(length <= most, "{number}: {length} bytes, {small} from {call}");
        }
    }
}

/// The smallest call with an order that this question refuses, from some of the stream.
fn smallest_orders(number: u8) -> impl Iterator<Item = Call> {
    refused(number)
        .take(6)
        .map(move |call| smallest(&call, &graph_in, &mut |call| refusal(call) == number, 20_000))
}

/// How many places of a call's order stand before a lower one.
fn out_of_turn(call: &Call) -> usize {
    let places: Vec<&[u8]> = call.argument(Role::Order).unwrap_or_default().chunks(2).collect();
    (0..places.len()).filter(|at| places[at + 1..].iter().any(|later| *later < places[*at])).count()
}

#[test]
fn tables_come_down_to_no_byte_to_zeros_or_to_one_place_out_of_turn() {
    for small in smallest_orders(28) {
        assert_eq!(small.to_string(), "check_order -");
    }
    for small in smallest_orders(29) {
        assert_eq!(small.to_string(), format!("check_order {}", "0".repeat(2720)));
    }
    for small in smallest_orders(30) {
        assert_eq!((small.name(), out_of_turn(&small)), (Name::CheckOrder, 1), "{small}");
    }
}

#[test]
fn an_order_that_matters_comes_down_to_what_matters() {
    let differs = |call: &Call| {
        let of = |role| call.argument(role).unwrap_or_default();
        let ordered = graph_in(of(Role::Sheet), Some(of(Role::Order)));
        call.name() == Name::BuildOrdered && ordered.is_some() && ordered != graph_in(of(Role::Sheet), None)
    };
    for call in Stream::new(1, graph_in).filter(differs).take(6) {
        let small = smallest(&call, &graph_in, &mut |call| differs(call), 20_000);
        let sheet = small.argument(Role::Sheet).unwrap_or_default();
        assert!(sheet.len() <= 16 && out_of_turn(&small) <= 3, "{small} from {call}");
        assert_eq!(small.argument(Role::Buffer), Some(&[][..]));
    }
}

/// The positions of a call, none if they are not whole.
fn positions(call: &Call) -> Vec<u16> {
    let bytes = call.argument(Role::Positions).filter(|bytes| bytes.len() % 2 == 0).unwrap_or_default();
    bytes.chunks_exact(2).map(|two| u16::from_be_bytes([two[0], two[1]])).collect()
}

#[test]
fn positions_come_down_to_zeros_or_to_one_place_that_stands_behind() {
    for call in refused(38).take(6) {
        let small = smallest(&call, &graph_in, &mut |call| refusal(call) == 38, 20_000);
        assert_eq!(small.to_string(), format!("order {} -", "0".repeat(2720)), "from {call}");
    }
    // A place that comes after one that is higher.
    let not_ascending = |call: &Call| {
        let list = positions(call);
        list.len() == 680 && !track::places(&list).is_sorted()
    };
    for call in Stream::new(2, graph_in).filter(not_ascending).take(12) {
        let small = smallest(&call, &graph_in, &mut |call| not_ascending(call), 20_000);
        let mut behind = positions(&small);
        behind.retain(|position| *position > 0);
        assert_eq!((behind, small.argument(Role::Buffer)), (vec![1], Some(&[][..])), "{small} from {call}");
    }
}

#[test]
fn no_more_questions_are_asked_than_allowed() {
    let call = refused(11).next().expect("a call");
    for allowed in [0, 1, 50] {
        let mut asked = 0;
        let mut shows = |call: &Call| {
            asked += 1;
            refusal(call) == 11
        };
        let small = smallest(&call, &graph_in, &mut shows, allowed);
        assert!(asked <= allowed && refusal(&small) == 11);
    }
}
