//! Graphs in reading orders over random sheets (document 02, request 1): byte for byte the reference's, with
//! all places in turn the plain graph, and under every two tables the same word and rule, the plain answer's.

use voltunnis_tests::both::{build_ordered, check_order, lend, lent, walk};
use voltunnis_tests::bytes::to_hex;
use voltunnis_tests::count::Count;
use voltunnis_tests::generate::crowded::crowded;
use voltunnis_tests::generate::damage::damaged;
use voltunnis_tests::generate::orders::{any, ascending, order, some_table, table};
use voltunnis_tests::generate::pieces::piece;
use voltunnis_tests::generate::random::Random;
use voltunnis_tests::generate::sheets::{sheet, small_sheet};
use voltunnis_tests::generate::stock::Stock;
use voltunnis_tests::generate::trees::{piece_bytes, SheetTree};
use voltunnis_tests::results::{Built, GraphSize, Plain};
use voltunnis_tests::{reference, voltunnis};

/// A sheet of all sorts.
fn some_sheet(random: &mut Random) -> SheetTree {
    match random.below(20) {
        0 => crowded(random),
        1..=5 => small_sheet(random, Stock::FULL),
        _ => sheet(random),
    }
}

/// Builds in an order to buffers of several lengths, as the reference does: a refusal changes no byte, a graph none
/// after it. Gives the graph, if there is one.
fn built(random: &mut Random, count: &mut Count, sheet: &[u8], order: &[u8]) -> Option<Vec<u8>> {
    let mut graph = reference::graph_in(sheet, Some(order)).unwrap_or_default();
    let expected = reference::build_ordered(sheet, order, &mut graph);
    let fits = expected.map_or(60, |built| built.bytes as usize);
    let mut lengths = vec![fits + random.below(40)];
    if random.percent(20) {
        lengths.extend([0, fits - 1, fits, random.below(fits)]);
    }
    for len in lengths {
        let (result, buffer) = lend(len, |buffer| voltunnis::build_ordered(sheet, order, buffer));
        assert_eq!(result, if len < fits { expected.and(Err(19)) } else { expected }, "{}", to_hex(sheet));
        let end = result.map_or(0, |built| built.bytes as usize);
        assert!(buffer[..end] == graph[..end], "other bytes than the reference's: {}", to_hex(sheet));
        assert!(buffer[end..] == lent(len)[end..], "a byte that is not the graph's");
        count.met(result.map_or_else(|refusal| format!("refused {refusal}"), |_| "built".into()));
    }
    let Built { nodes, .. } = expected.ok()?;
    assert_eq!(voltunnis::check_graph(sheet, &graph), Ok(GraphSize { nodes }));
    Some(graph)
}

/// Walks a piece over graphs of one sheet: word and rule are those of the plain answer.
fn walked(count: &mut Count, sheet: &[u8], graphs: &[Vec<u8>], piece: &[u8]) {
    let Ok(plain) = voltunnis::plain(sheet, piece) else { return };
    let mut all = Vec::new();
    for graph in graphs {
        let answer = walk(sheet, graph, piece).expect("a built graph answers");
        let said = Plain { word: answer.walk.word, rule: answer.walk.rule };
        assert_eq!(said, plain, "sheet {} piece {}", to_hex(sheet), to_hex(piece));
        all.push(answer);
    }
    if all.len() == 3 {
        count.met(plain.word);
        count.met(if all.iter().all(|one| one.walk.edges == all[0].walk.edges) {
            "edges"
        } else {
            "other edges"
        });
        count.met(if all.iter().all(|one| one.wait == all[0].wait) { "list" } else { "other list" });
    }
}

/// Tries so many sheets, each under the ascending table, any order, and one of a sort.
fn try_sheets(seed: u64, sheets: usize) -> Count {
    let mut random = Random::new(seed);
    let mut count = Count::default();
    let first = table(&ascending());
    for _ in 0..sheets {
        let tree = some_sheet(&mut random);
        let sheet = match random.below(30) {
            0 => damaged(&mut random, &tree.bytes()),
            _ => tree.bytes(),
        };
        let tables = [first.clone(), table(&any(&mut random)), table(&order(&mut random))];
        let graphs: Vec<Vec<u8>> =
            tables.iter().filter_map(|order| built(&mut random, &mut count, &sheet, order)).collect();
        let plain = reference::own_graph(&sheet);
        assert!(
            plain.is_none() || plain.as_ref() == graphs.first(),
            "all places in turn: {}",
            to_hex(&sheet)
        );
        let len = plain.map_or(60, |graph| graph.len());
        let one = lend(len, |buffer| voltunnis::build(&sheet, buffer));
        let other = lend(len, |buffer| voltunnis::build_ordered(&sheet, &first, buffer));
        assert!(one == other, "vt_build: {}", to_hex(&sheet));
        count.met(format!("{} graphs", graphs.len()));
        count.met(if graphs.windows(2).all(|two| two[0] == two[1]) { "same graph" } else { "other graph" });
        for _ in 0..2 {
            let piece = piece_bytes(&piece(&mut random, &tree, Stock::FULL));
            walked(&mut count, &sheet, &graphs, &piece);
        }
    }
    count
}

fn enough(count: &Count) {
    count.print();
    count.often(6_000, ["3 graphs", "built"]);
    count.often(15, ["0 graphs", "1 graphs", "2 graphs", "refused 18"]);
    count.often(3_000, ["refused 19", "same graph", "other graph"]);
    count.often(300, ["commit", "execute", "suspend", "fail", "other edges", "other list"]);
    count.often(10, [1, 4, 10, 11].map(|refusal| format!("refused {refusal}")));
}

#[test]
fn the_answer_is_the_same_in_every_order() {
    enough(&try_sheets(0x6f72_6465, 10_000));
}

#[test]
fn the_answer_is_the_same_in_every_order_on_as_many_more() {
    enough(&try_sheets(0x7265_6164, 10_000));
}

#[test]
fn library_and_reference_agree_on_good_and_damaged_tables() {
    let mut random = Random::new(0x6661_756c);
    let mut count = Count::default();
    for _ in 0..6_000 {
        let mut order = some_table(&mut random);
        if random.percent(20) {
            order = damaged(&mut random, &order);
        }
        let outcome = check_order(&order);
        count.met(outcome.map_or_else(|refusal| format!("refused {refusal}"), |()| "accepted".into()));
        let tree = some_sheet(&mut random);
        let (result, buffer) = build_ordered(&tree.bytes(), &order, 200);
        if let Err(refusal @ 28..=30) = result {
            assert_eq!(outcome, Err(refusal));
            assert!(buffer == lent(200), "a byte changed on a refusal");
            count.met(format!("built {refusal}"));
        }
    }
    count.print();
    count.often(200, ["accepted", "refused 28", "refused 29", "refused 30"]);
    count.often(100, ["built 28", "built 29", "built 30"]);
}
