//! Bytes to text to bytes: the same bytes, for 100,000 accepted sheets, as many accepted pieces, and the
//! graphs of some, for reading orders and track positions; and for what is refused, as long as its records can
//! be read.

use voltunnis_generate::asked::Asked;
use voltunnis_generate::bytes::to_hex;
use voltunnis_generate::crowded::crowded;
use voltunnis_generate::damage::damaged;
use voltunnis_generate::graphs::graph;
use voltunnis_generate::known;
use voltunnis_generate::orders::{any, ascending, deepest, last, levels, order, reversed, table, Fault};
use voltunnis_generate::pieces::piece;
use voltunnis_generate::random::Random;
use voltunnis_generate::sheets::sheet;
use voltunnis_generate::stock::Stock;
use voltunnis_generate::tracks::{list, Sort};
use voltunnis_generate::trees::piece_bytes;
use voltunnis_workbench::notation::{
    parse_graph, parse_order, parse_piece, parse_sheet, parse_track, print_graph, print_order, print_piece,
    print_sheet, print_track, Graph, Names, SheetText,
};

const ROUNDS: usize = 100_000;

/// The text of a sheet, which parsed again is the same bytes.
#[track_caller]
fn sheet_again(bytes: &[u8]) -> String {
    let text = print_sheet(bytes).expect("a sheet that can be read");
    let written = parse_sheet(&text).unwrap_or_else(|fault| panic!("{}", fault.show("printed", &text)));
    assert_eq!(to_hex(&written.sheet.bytes()), to_hex(bytes), "{text}");
    text
}

/// The text of a piece, which parsed again is the same bytes.
#[track_caller]
fn piece_again(bytes: &[u8]) -> String {
    let text = print_piece(bytes).expect("a piece that can be read");
    let parsed = parse_piece(&text, &Names::default());
    let piece = parsed.unwrap_or_else(|fault| panic!("{}", fault.show("printed", &text)));
    assert_eq!(to_hex(&piece.bytes()), to_hex(bytes), "{text}");
    text
}

#[track_caller]
fn graph_again(bytes: &[u8]) {
    let text = print_graph(bytes).expect("a graph that can be read");
    let parsed = parse_graph(&text, &Names::default());
    let graph = parsed.unwrap_or_else(|fault| panic!("{}", fault.show("printed", &text)));
    assert!(graph.bytes() == bytes, "{text}");
}

#[test]
fn accepted_sheets_come_back_as_they_were() {
    let mut random = Random::new(0x7368_6565);
    let (mut accepted, mut series, mut gauges) = (0, 0, 0);
    while accepted < ROUNDS {
        let tree = if random.percent(5) { crowded(&mut random) } else { sheet(&mut random) };
        let bytes = tree.bytes();
        accepted += usize::from(voltunnis::check_sheet(&bytes).is_ok());
        let text = sheet_again(&bytes);
        series += usize::from(text.contains("..#"));
        gauges += usize::from(text.contains('@'));
    }
    let least = series.min(gauges);
    assert!(least > ROUNDS / 10, "{series} sheets with series, {gauges} with gauges");
}

/// The variables of a tidy sheet are numbered by first appearance, so all are printed by letters.
#[test]
fn tidy_sheets_are_printed_by_letters_and_come_back() {
    let mut random = Random::new(0x7469_6479);
    let (mut lettered, mut numbered) = (0, 0);
    for _ in 0..20_000 {
        let bytes = sheet(&mut random).bytes();
        let Ok(tidy) = voltunnis::tidy_sheet(&bytes) else { continue };
        let [before, after] = [&bytes, &tidy].map(|bytes| sheet_again(bytes));
        assert!(!after.contains('V'), "{after}");
        lettered += usize::from(after.contains('X'));
        numbered += usize::from(before.contains('V'));
    }
    assert!(lettered > 1_000 && numbered > 1_000, "{lettered} with variables, {numbered} numbered before");
}

#[test]
fn accepted_pieces_come_back_as_they_were() {
    let mut random = Random::new(0x7069_6563);
    let (mut accepted, mut spans, mut nevers, mut gauges) = (0, 0, 0, 0);
    while accepted < ROUNDS {
        let tree = sheet(&mut random);
        for _ in 0..10 {
            let bytes = piece_bytes(&piece(&mut random, &tree, Stock::FULL));
            accepted += usize::from(voltunnis::check_piece(&bytes).is_ok());
            let text = piece_again(&bytes);
            spans += usize::from(text.contains(".."));
            nevers += usize::from(text.contains('!'));
            gauges += usize::from(text.contains('@'));
        }
    }
    let met = format!("{spans} pieces with spans, {nevers} with nevers, {gauges} with gauges");
    assert!([spans, nevers, gauges].iter().all(|count| *count > ROUNDS / 10), "{met}");
}

/// Spans of all sorts: of one number, which stays a span, and with low above high, which is refused.
#[test]
fn spans_come_back_as_they_were() {
    let ends = [0, 1, 9, 10, 255, 256, 65534, 65535];
    for (low, high) in ends.into_iter().flat_map(|low| ends.map(|high| (low, high))) {
        let span = [&[0x34][..], &u16::to_be_bytes(low), &u16::to_be_bytes(high)].concat();
        let bytes = [&[0x11, 3][..], &span, &[0x32, 0, 7, 0x33, 0, 1, 2, 0x30], &span].concat();
        assert_eq!(piece_again(&bytes), format!("({low}..{high}?, 7, #1(?, {low}..{high}?))"));
    }
    let spaced = parse_piece("( 231 .. 239 ? )", &Names::default()).expect("a piece");
    assert_eq!(spaced.bytes(), [0x11, 1, 0x34, 0, 231, 0, 239]);
}

/// Series of all sorts: of one symbol, which stays a series, and with low above high, which is refused.
#[test]
fn series_come_back_as_they_were() {
    let ends = [0, 1, 9, 10, 255, 256, 65534, 65535];
    for (low, high) in ends.into_iter().flat_map(|low| ends.map(|high| (low, high))) {
        let series = [&[0x26][..], &u16::to_be_bytes(low), &u16::to_be_bytes(high)].concat();
        let bytes = [&[0x10, 2, 1][..], &series, &[0x23, 0, 1, 2, 0x21, 0, 7], &series].concat();
        let text = format!("sheet 2\n1: (#{low}..#{high}, #1(#7, #{low}..#{high}))\n");
        assert_eq!(sheet_again(&bytes), text);
        let case = [&[0x44][..], &series[1..], &[0, 0]].concat();
        graph_again(&[&[0x12, 1, 1, 0, 1, 0x43, 0, 0, 0, 1, 0, 0, 0, 0][..], &case].concat());
    }
    let spaced = parse_sheet("sheet 1\nname red = 3\n1: ( red .. #9 )\n").expect("a sheet");
    assert_eq!(spaced.sheet.bytes(), [0x10, 1, 1, 0x26, 0, 3, 0, 9]);
}

#[test]
fn graphs_come_back_as_they_were() {
    let mut random = Random::new(0x6772_6170);
    let mut built = 0;
    while built < 2_000 {
        let bytes = sheet(&mut random).bytes();
        if let Ok(graph) = voltunnis::graph(&bytes) {
            graph_again(&graph);
            built += 1;
        }
    }
    for _ in 0..2_000 {
        let asked = Asked::of(&sheet(&mut random));
        // Another maker's, or a damaged one: if it can be read, it comes back.
        let graph = graph(&mut random, &asked, || None);
        if print_graph(&graph).is_ok() {
            graph_again(&graph);
        }
    }
    // Among them a switch with 8,385 cases, and graphs of more than a million bytes.
    for sheet in [
        known::nodes_1024(),
        known::nested_1(64),
        known::nested_8(32),
        known::zeros_and_ones(32),
        known::coins(28),
    ] {
        graph_again(&voltunnis::graph(&sheet).expect("a graph"));
    }
}

/// Names that are words of the notation too are no trouble.
#[test]
fn odd_names_come_back_as_they_were() {
    let words =
        ["name", "sheet", "graph", "neither", "unknown", "no", "other", "fail", "argument", "place", "part"];
    let declared: String =
        words.iter().enumerate().map(|(at, word)| format!("name {word} = {at}\n")).collect();
    let rules: String = words
        .iter()
        .enumerate()
        .map(|(at, word)| format!("{}: ({word}, {word}({word}, X), X, {word}..part)\n", at + 1))
        .collect();
    let text = format!("sheet 4\n{declared}{rules}");
    let SheetText { sheet, names } = parse_sheet(&text).expect("a sheet");
    let printed = sheet.print(&names);
    let again = parse_sheet(&printed).unwrap_or_else(|fault| panic!("{}", fault.show("printed", &printed)));
    assert_eq!(again.sheet.bytes(), sheet.bytes(), "{printed}");
    let graph = voltunnis::graph(&sheet.bytes()).expect("a graph");
    let printed = Graph::read(&graph).expect("a graph").print(&names, |rule| Some(format!("rule {rule}")));
    let again =
        parse_graph(&printed, &names).unwrap_or_else(|fault| panic!("{}", fault.show("printed", &printed)));
    assert!(again.bytes() == graph, "{printed}");
}

/// Damaged bytes are printed or not, but what is printed comes back.
#[test]
fn what_can_be_read_comes_back() {
    let mut random = Random::new(0x6461_6d61);
    let mut printed = 0;
    for _ in 0..20_000 {
        let tree = sheet(&mut random);
        let bytes = damaged(&mut random, &tree.bytes());
        if print_sheet(&bytes).is_ok() {
            sheet_again(&bytes);
            printed += 1;
        }
        let piece = piece_bytes(&piece(&mut random, &tree, Stock::FULL));
        let bytes = damaged(&mut random, &piece);
        if print_piece(&bytes).is_ok() {
            piece_again(&bytes);
            printed += 1;
        }
    }
    assert!(printed > 2_000, "{printed} of the damaged ones could be read");
}

/// The lines in which a table is printed, the first left out; parsed again they are the same table.
#[track_caller]
fn order_again(bytes: &[u8]) -> Vec<String> {
    let text = print_order(bytes).expect("an order that can be read");
    let order = parse_order(&text).unwrap_or_else(|fault| panic!("{}", fault.show("printed", &text)));
    assert!(order.bytes() == bytes, "{text}");
    text.lines().skip(1).map(String::from).collect()
}

#[test]
fn orders_come_back_as_they_were() {
    assert_eq!(order_again(&table(&ascending())), [""; 0]);
    assert_eq!(order_again(&table(&last(0))), ["rest", "argument 1"]);
    assert_eq!(order_again(&table(&last(7))), [""; 0]);
    let backwards: Vec<String> = (2..=8).rev().map(|argument| format!("argument {argument}")).collect();
    assert_eq!(order_again(&table(&reversed())), backwards);
    // All arguments, then each part alone.
    assert_eq!(order_again(&table(&levels())).len(), 1 + 32 + 128 + 512);
    order_again(&table(&deepest()));
    let mut random = Random::new(0x6f72_6465);
    for _ in 0..500 {
        order_again(&table(&any(&mut random)));
        order_again(&table(&order(&mut random)));
    }
}

#[test]
fn a_table_that_is_refused_comes_back_if_it_has_each_place_once() {
    let mut random = Random::new(0x7265_6675);
    for _ in 0..200 {
        let places = order(&mut random);
        let early = Fault::BeforeParent.put(&mut random, &places);
        assert_eq!(voltunnis::check_order(&early).unwrap_err().number(), 30);
        order_again(&early);
        for fault in [Fault::Length, Fault::OutOfRange, Fault::Twice] {
            assert!(print_order(&fault.put(&mut random, &places)).is_err(), "{fault:?}");
        }
    }
}

/// The lines in which positions are printed, the first left out; parsed again they are the same positions.
#[track_caller]
fn track_again(positions: &[u16]) -> Vec<String> {
    let bytes = list(positions);
    let text = print_track(&bytes).expect("positions that can be read");
    let track = parse_track(&text).unwrap_or_else(|fault| panic!("{}", fault.show("printed", &text)));
    assert!(track.bytes() == bytes, "{text}");
    assert_eq!(track.print(), text);
    text.lines().skip(1).map(String::from).collect()
}

#[test]
fn track_positions_come_back_as_they_were() {
    assert_eq!(track_again(&[65535; 680]), [""; 0]);
    let arguments: Vec<String> = (1..=8).map(|argument| format!("argument {argument} at 0")).collect();
    assert_eq!(track_again(&[0; 680]), arguments);
    let each: Vec<u16> = (0..680).rev().collect();
    assert_eq!(track_again(&each)[..2], ["argument 8, part 4.4.4 at 0", "argument 8, part 4.4.3 at 1"]);
    let mut random = Random::new(0x7472_6163);
    for sort in [Sort::ALL; 100].into_iter().flatten() {
        let lines = track_again(&sort.positions(&mut random)).len();
        // Where no place stands where its parent does, each has a line.
        let every = matches!(sort, Sort::Reversed | Sort::ParentsLast | Sort::Numbered);
        assert!(!every || lines == 680, "{sort:?}: {lines} lines");
        assert!(sort != Sort::Equal || lines <= 8, "{sort:?}: {lines} lines");
    }
}

/// Lines may stand in any order, and a place may be named that stands where it would unnamed.
#[test]
fn a_drawing_can_be_written_in_many_ways() {
    let mut random = Random::new(0x6472_6177);
    for sort in [Sort::ALL; 20].into_iter().flatten() {
        let positions = sort.positions(&mut random);
        let mut lines: Vec<String> = positions
            .iter()
            .enumerate()
            .map(|(place, position)| format!("place {place} at {position}"))
            .collect();
        (1..lines.len()).for_each(|at| lines.swap(at, random.below(at + 1)));
        let track = parse_track(&format!("track\n{}\n", lines.join("\n"))).expect("a drawing");
        assert_eq!((track.lines.len(), track.positions()), (680, positions));
    }
}

#[test]
fn bytes_of_another_length_are_no_track_positions() {
    for (length, at) in [(0, 0), (1, 0), (2, 2), (1358, 1358), (1359, 1358), (1361, 1360), (2720, 1360)] {
        assert_eq!(print_track(&vec![1; length]).expect_err("another length").at, at, "{length} bytes");
    }
}
