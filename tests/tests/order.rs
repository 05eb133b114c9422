//! Reading orders (document 02, request 1): the shared vectors, graphs byte for byte, questions 28 to 30 at
//! their limits and in their turn, and the buffer around the graph.

use voltunnis_tests::both::{build, build_ordered, check_graph, check_order, enough, lent, walk};
use voltunnis_tests::bytes::{from_hex, to_hex};
use voltunnis_tests::generate::known;
use voltunnis_tests::generate::orders::{any, ascending, deepest, last, levels, reversed, table, Fault};
use voltunnis_tests::generate::random::Random;
use voltunnis_tests::reference::listing::listing;
use voltunnis_tests::results::{Built, GraphSize, Refusal};

/// The vectors of request 1, as requests 4 and 5 make them: the example's graph and listing.
const VECTORS: &str = include_str!("../vectors/order.txt");

/// The graph of an accepted sheet in an order, from a buffer that is larger.
#[track_caller]
fn graph(sheet: &[u8], places: &[u16]) -> (Built, Vec<u8>) {
    let len = enough(sheet, Some(&table(places)));
    let (result, mut buffer) = build_ordered(sheet, &table(places), len);
    let built = result.expect("a graph");
    let bytes = built.bytes as usize;
    assert!(buffer[bytes..] == lent(len)[bytes..], "a byte after the graph");
    buffer.truncate(bytes);
    (built, buffer)
}

/// Builds to a buffer of this length and is refused; no byte of it changes.
#[track_caller]
fn refused(sheet: &[u8], table: &[u8], len: usize, refusal: Refusal) {
    let (result, buffer) = build_ordered(sheet, table, len);
    assert_eq!(result, Err(refusal), "{} to {len} bytes", to_hex(sheet));
    assert!(buffer == lent(len), "a byte changed on a refusal");
}

#[test]
fn the_shared_vectors_are_met() {
    let mut met = Vec::new();
    for line in VECTORS.lines() {
        let (call, said) = line.strip_prefix("6|").and_then(|rest| rest.split_once('|')).expect("a vector");
        let words: Vec<&str> = call.split(' ').collect();
        let said = match words[..] {
            ["build", sheet, len] => {
                let (sheet, len) = (from_hex(sheet), len.parse().expect("a length"));
                let one = build(&sheet, len);
                assert!(one == build_ordered(&sheet, &table(&ascending()), len), "the plain graph");
                let Built { nodes, bytes } = one.0.expect("a graph");
                assert_eq!(said, format!("ok {nodes} {bytes} {}", to_hex(&one.1[..bytes as usize])));
                "build"
            }
            ["listing", sheet, pieces] => {
                let lines = listing(&from_hex(sheet), &from_hex(pieces)).replace('\n', "|");
                assert_eq!(said, format!("ok {lines}"));
                "listing"
            }
            _ => panic!("no call: {call}"),
        };
        met.push(said);
    }
    assert_eq!(met, ["build", "listing"]);
}

#[test]
fn the_examples_graph_asks_argument_2_first() {
    let (built, bytes) = graph(&known::example(), &reversed());
    let nodes = [
        "12 02 02 00 06",
        "43 00 55 00 01 00 02 00 01 44 00 02 00 02 00 01",
        "43 00 00 00 01 00 02 00 03 44 00 01 00 01 00 03",
        "42 01",
        "47 00 00 00 55 00 04 00 05",
        "42 02",
        "41",
    ];
    assert_eq!(to_hex(&bytes), to_hex(&from_hex(&nodes.concat())));
    assert_eq!(built, Built { nodes: 6, bytes: 51 });
    let said = known::example_pieces();
    let said =
        said.iter().map(|piece| walk(&known::example(), &bytes, piece).expect("an answer").to_string());
    let answers = [
        "commit 2 3 0000000000000000",
        "execute 1 1 0000000000000004",
        "suspend 0 3 0000000000000007",
        "fail 0 1 0000000000000000",
    ];
    assert_eq!(said.collect::<Vec<_>>(), answers);
}

#[test]
fn tests_keep_their_numbers_and_pairs_come_last() {
    // (X, X, 1) and (2, _, 3): argument 3 is asked first, then argument 1, the pair last.
    let sheet = from_hex("10 03 02 24 00 24 00 21 00 01 21 00 02 20 21 00 03");
    let (_, bytes) = graph(&sheet, &reversed());
    assert_eq!(bytes[5..8], [0x43, 0, 170]);
    let open = walk(&sheet, &bytes, &from_hex("11 03 30 30 30")).expect("an answer");
    assert_eq!(open.to_string(), "suspend 0 3 0000000000000007");
    // Unknown at 3 lists test 1, unknown at 1 test 0, and the pair is test 2.
    let known = walk(&sheet, &bytes, &from_hex("11 03 30 30 31 00 01")).expect("an answer");
    assert_eq!(known.to_string(), "execute 1 1 0000000000000004");
}

#[test]
fn a_place_that_the_sheet_does_not_test_makes_no_difference() {
    let sheet = known::example();
    let (_, plain) = graph(&sheet, &ascending());
    for places in [last(7), last(2), levels()] {
        assert_eq!(graph(&sheet, &places).1, plain);
    }
    assert_eq!(graph(&sheet, &last(0)).1, graph(&sheet, &reversed()).1);
}

#[test]
fn all_places_in_turn_give_the_plain_graph() {
    let ascending = table(&ascending());
    for sheet in [
        known::example(),
        known::coins(16),
        known::zeros_and_ones(32),
        known::nested_16(32),
        known::nodes_1024(),
        known::nodes_1025(),
        known::eight_alike(),
        known::coins(64),
        known::nested_1(64),
        from_hex("10 03 00"),
    ] {
        for len in [0, 5, 51, enough(&sheet, None)] {
            assert!(build_ordered(&sheet, &ascending, len) == build(&sheet, len), "{}", to_hex(&sheet));
        }
    }
}

#[test]
fn question_18_may_be_for_one_order_only() {
    let sheet = known::nodes_1025();
    refused(&sheet, &table(&ascending()), 20_000, 18);
    let size = |a| build_ordered(&sheet, &table(&last(a)), 20_000).0.map(|built| built.nodes);
    let sizes: Vec<Result<u16, Refusal>> = (0..8).map(size).collect();
    println!("one argument last: {sizes:?}");
    assert!(sizes.iter().any(Result::is_ok) && sizes.contains(&Err(18)), "{sizes:?}");
}

#[test]
fn orders_of_all_sorts_are_accepted() {
    let mut random = Random::new(0x736f_7274);
    let fixed = [ascending(), reversed(), deepest(), levels()];
    for places in fixed.into_iter().chain((0..8).map(last)).chain((0..200).map(|_| any(&mut random))) {
        assert_eq!(check_order(&table(&places)), Ok(()), "{places:?}");
    }
}

#[test]
fn question_28_asks_for_1360_bytes() {
    let all = table(&ascending());
    let longer = [&all[..], &all[..]].concat();
    for len in [0, 1, 2, 679, 680, 1358, 1359, 1361, 1362, 2720] {
        assert_eq!(check_order(&longer[..len]), Err(28), "{len} bytes");
    }
    assert_eq!(check_order(&longer[..1360]), Ok(()));
    assert_eq!(check_order(&vec![0xff; 1359]), Err(28));
}

#[test]
fn question_29_asks_for_each_place_once_at_every_index() {
    let places = ascending();
    for at in 0..680 {
        for wrong in [680, 681, 0x0300, 0xffff, places[(at + 1) % 680], places[(at + 679) % 680]] {
            let mut places = places.clone();
            places[at] = wrong;
            assert_eq!(check_order(&table(&places)), Err(29), "{wrong} at {at}");
        }
    }
}

#[test]
fn question_30_asks_for_the_parent_of_every_place() {
    for place in 0..680u16 {
        // It stands before all others, its parent among them.
        let mut places = ascending();
        places.retain(|other| *other != place);
        places.insert(0, place);
        let expected = if place % 85 == 0 { Ok(()) } else { Err(30) };
        assert_eq!(check_order(&table(&places)), expected, "place {place} first");
    }
    let mut places = ascending();
    places.swap(675, 676);
    assert_eq!(check_order(&table(&places)), Err(30));
    places.swap(676, 677);
    assert_eq!(check_order(&table(&places)), Err(30));
    let mut places = ascending();
    places.swap(678, 679);
    assert_eq!(check_order(&table(&places)), Ok(()));
}

#[test]
fn a_place_out_of_range_or_twice_anywhere_comes_before_one_before_its_parent() {
    let mut random = Random::new(0x626f_7468);
    for (fault, refusal) in [
        (Fault::Length, 28),
        (Fault::OutOfRange, 29),
        (Fault::Twice, 29),
        (Fault::BeforeParent, 30),
        (Fault::OutOfRangeAndBeforeParent, 29),
        (Fault::TwiceAndBeforeParent, 29),
    ] {
        for _ in 0..300 {
            let places = any(&mut random);
            let table = fault.put(&mut random, &places);
            assert_eq!(check_order(&table), Err(refusal), "{fault:?}");
            refused(&known::example(), &table, random.pick(&[0, 50, 51, 100]), refusal);
        }
    }
}

#[test]
fn questions_28_to_30_come_after_the_sheets_and_before_18_and_19() {
    let mut random = Random::new(0x7475_726e);
    let mut long = known::nodes_1025();
    long.push(0x20);
    for (fault, refusal) in [(Fault::Length, 28), (Fault::Twice, 29), (Fault::BeforeParent, 30)] {
        let table = fault.put(&mut random, &ascending());
        for len in [0, 100] {
            refused(&[], &table, len, 1);
            refused(&from_hex("10 01 01 21"), &table, len, 4);
            refused(&long, &table, len, 10);
            refused(&known::nodes_1025(), &table, len, refusal);
            refused(&from_hex("10 01 00"), &table, len, refusal);
        }
    }
    refused(&known::coins(64), &table(&reversed()), 0, 18);
    refused(&known::example(), &table(&reversed()), 50, 19);
}

#[test]
fn buffers_are_kept_to() {
    for places in [ascending(), reversed(), deepest()] {
        for sheet in [known::example(), known::coins(8), known::nested_8(16), from_hex("10 01 00")] {
            let (built, bytes) = graph(&sheet, &places);
            assert_eq!(check_graph(&sheet, &bytes), Ok(GraphSize { nodes: built.nodes }));
            let exact = build_ordered(&sheet, &table(&places), bytes.len());
            assert!(exact == (Ok(built), bytes.clone()), "other bytes in an exact buffer");
            for len in [0, 1, 4, 5, bytes.len() - 1] {
                refused(&sheet, &table(&places), len, 19);
            }
        }
    }
}
