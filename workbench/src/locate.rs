//! Where a refusal happened: the first record at which the library gives this number.
//!
//! Nothing is asked here but the library. A sheet is handed to it record by record, the rest of the rule
//! as anything and the later rules left out; a piece with the rest unknown; a graph with the rest of its
//! nodes as fail; an order with the rest of the places ascending. The first such start that gets the same
//! number ends at the record that is meant.

use crate::notation::Span;
use voltunnis::{check_graph, check_order, check_piece, check_sheet, Refusal, ORDER_BYTES};

/// Where a refusal happened.
#[derive(Clone, Copy, Debug, PartialEq, Eq)]
pub enum Where {
    /// At the head, or nowhere in particular.
    Head,
    /// At a record after the head, counted from 0 (a pattern, a term, a node or a place of an order), with
    /// its bytes. Patterns have the number of their rule, from 1, all others 0.
    Record { index: usize, rule: usize, at: Span },
    /// At the bytes from here on: a record that is not whole, or bytes that are left.
    Rest(usize),
}

/// The length of a pattern's or a term's record, and how many arguments follow it.
fn record(bytes: &[u8]) -> Option<(usize, usize)> {
    let length = match bytes.first()? {
        0x20 | 0x30 | 0x35 => 1,
        0x24 => 2,
        0x21 | 0x31 | 0x32 => 3,
        0x23 | 0x33 | 0x36 => 4,
        0x22 | 0x26 | 0x34 => 5,
        0x25 | 0x27 => 6,
        _ => return None,
    };
    let body = bytes.get(..length)?;
    Some((length, if matches!(body[0], 0x23 | 0x33) { usize::from(body[3]) } else { 0 }))
}

/// The length of a node's record with its cases.
fn node(bytes: &[u8]) -> Option<usize> {
    let length = match bytes.first()? {
        0x40 | 0x41 => 1,
        0x42 => 2,
        0x47 => 9,
        0x43 => {
            let mut length = 9;
            for _ in 0..u16::from_be_bytes(*bytes.get(3..)?.first_chunk()?) {
                length += match bytes.get(length)? {
                    0x46 => 8,
                    0x44 => 7,
                    0x45 => 6,
                    _ => return None,
                };
            }
            length
        }
        _ => return None,
    };
    (length <= bytes.len()).then_some(length)
}

/// A record: its bytes, its rule, and how many records of that rule are still due after it.
struct Entry {
    at: Span,
    rule: usize,
    due: usize,
}

/// The records after a head, as far as they can be read, and where the reading ends.
fn entries(bytes: &[u8], head: usize, rules: usize, arity: usize) -> (Vec<Entry>, usize) {
    let mut entries = Vec::new();
    let mut start = head;
    for rule in 1..=rules {
        let mut due = arity;
        while due > 0 {
            let Some((length, more)) = bytes.get(start..).and_then(record) else {
                return (entries, start);
            };
            due = due - 1 + more;
            entries.push(Entry { at: Span::new(start, start + length), rule, due });
            start += length;
        }
    }
    (entries, start)
}

/// The first entry whose start of the whole is refused by the same number.
fn first(entries: &[Entry], rest: usize, refused: impl Fn(&Entry) -> bool) -> Where {
    let index = entries.partition_point(|entry| !refused(entry));
    match entries.get(index) {
        Some(Entry { at, rule, .. }) => Where::Record { index, rule: *rule, at: *at },
        None => Where::Rest(rest),
    }
}

/// Where a sheet's check got this refusal.
pub fn in_sheet(bytes: &[u8], refusal: Refusal) -> Where {
    let (Some([_, arity, rules]), 3..) = (bytes.first_chunk::<3>(), refusal.number()) else {
        return Where::Head;
    };
    let (entries, rest) = entries(bytes, 3, usize::from(*rules), usize::from(*arity));
    first(&entries, rest, |entry| {
        let mut start = bytes[..entry.at.end].to_vec();
        start[2] = entry.rule as u8;
        start.extend(vec![0x20; entry.due]);
        check_sheet(&start) == Err(refusal)
    })
}

/// Where a piece's check got this refusal.
pub fn in_piece(bytes: &[u8], refusal: Refusal) -> Where {
    let (Some([_, arity]), 14..) = (bytes.first_chunk::<2>(), refusal.number()) else {
        return Where::Head;
    };
    let (mut entries, rest) = entries(bytes, 2, 1, usize::from(*arity));
    entries.iter_mut().for_each(|entry| entry.rule = 0);
    first(&entries, rest, |entry| {
        let mut start = bytes[..entry.at.end].to_vec();
        start.extend(vec![0x30; entry.due]);
        check_piece(&start) == Err(refusal)
    })
}

/// Where a graph's check with its sheet got this refusal.
pub fn in_graph(sheet: &[u8], bytes: &[u8], refusal: Refusal) -> Where {
    let (Some([_, _, _, high, low]), 22..) = (bytes.first_chunk::<5>(), refusal.number()) else {
        return Where::Head;
    };
    let count = usize::from(u16::from_be_bytes([*high, *low]));
    let mut nodes = Vec::new();
    let mut start = 5;
    while let (true, Some(length)) = (nodes.len() < count, bytes.get(start..).and_then(node)) {
        nodes.push(Entry { at: Span::new(start, start + length), rule: 0, due: count - nodes.len() - 1 });
        start += length;
    }
    first(&nodes, start, |entry| {
        let mut begun = bytes[..entry.at.end].to_vec();
        begun.extend(vec![0x40; entry.due]);
        check_graph(sheet, &begun) == Err(refusal)
    })
}

/// Where an order's check got this refusal.
pub fn in_order(bytes: &[u8], refusal: Refusal) -> Where {
    let rest = bytes.len().min(ORDER_BYTES);
    if refusal.number() == 28 {
        return Where::Rest(rest);
    }
    let entry = |at: usize| Entry { at: Span::new(at, at + 2), rule: 0, due: 0 };
    let entries: Vec<Entry> = (0..rest).step_by(2).map(entry).collect();
    first(&entries, rest, |entry| {
        let mut start = bytes[..entry.at.end].to_vec();
        let known: Vec<[u8; 2]> = start.chunks(2).map(|two| [two[0], two[1]]).collect();
        let others = (0..680).map(u16::to_be_bytes).filter(|place| !known.contains(place));
        start.extend(others.flatten());
        start.truncate(ORDER_BYTES);
        check_order(&start) == Err(refusal)
    })
}

#[cfg(test)]
mod tests {
    use super::*;

    fn sheet(bytes: &[u8]) -> (u8, Where) {
        let refusal = check_sheet(bytes).expect_err("a refusal");
        (refusal.number(), in_sheet(bytes, refusal))
    }

    #[test]
    fn the_record_that_is_meant_is_found() {
        assert_eq!(sheet(&[0x11]), (1, Where::Head));
        assert_eq!(sheet(&[0x10, 9, 0]), (2, Where::Head));
        let at = |start, end| Span::new(start, end);
        let low = [0x10, 1, 2, 0x20, 0x22, 0, 9, 0, 5, 0x20];
        assert_eq!(sheet(&low), (7, Where::Record { index: 1, rule: 2, at: at(4, 9) }));
        // The two ranges of one variable have nothing in common: the second is meant.
        let apart = [0x10, 2, 1, 0x25, 0, 0, 1, 0, 2, 0x25, 0, 0, 3, 0, 4];
        assert_eq!(sheet(&apart), (9, Where::Record { index: 1, rule: 1, at: at(9, 15) }));
        assert_eq!(sheet(&[0x10, 1, 2, 0x20, 0x21, 0]), (4, Where::Rest(4)));
        assert_eq!(sheet(&[0x10, 1, 1, 0x20, 0x20]), (10, Where::Rest(4)));
        let many: Vec<u8> = [0x10, 1, 65].into_iter().chain([0x20; 65]).collect();
        assert_eq!(sheet(&many), (3, Where::Record { index: 64, rule: 65, at: at(67, 68) }));
        // 12 places of one variable are 66 pairs: the twelfth is meant.
        let twelve: Vec<u8> = [0x10, 3, 1]
            .into_iter()
            .chain([[0x23, 0, 1, 4, 0x24, 0, 0x24, 0, 0x24, 0, 0x24, 0]; 3].concat())
            .collect();
        assert!(
            matches!(sheet(&twelve), (11, Where::Record { index: 14, rule: 1, .. })),
            "{:?}",
            sheet(&twelve)
        );
    }

    #[test]
    fn series_are_found() {
        let at = |start| Span::new(start, start + 5);
        let low = [0x10, 1, 2, 0x26, 0, 5, 0, 5, 0x26, 0, 9, 0, 5];
        assert_eq!(sheet(&low), (7, Where::Record { index: 1, rule: 2, at: at(8) }));
        assert_eq!(sheet(&low[..12]), (4, Where::Rest(8)));
        // Two cases of ids, of seven bytes each, that have 7 in common; a node before them.
        let series = [0x10, 1, 1, 0x26, 0, 5, 0, 9];
        let mut graph = vec![0x12, 1, 1, 0, 2, 0x40, 0x43, 0, 0, 0, 2, 0, 0, 0, 0];
        graph.extend([0x44, 0, 5, 0, 7, 0, 0, 0x44, 0, 7, 0, 9, 0, 0]);
        let refusal = check_graph(&series, &graph).expect_err("a refusal");
        assert_eq!(refusal.number(), 24);
        let node = Where::Record { index: 1, rule: 0, at: Span::new(6, 29) };
        assert_eq!(in_graph(&series, &graph, refusal), node);
    }

    #[test]
    fn terms_and_nodes_are_found_too() {
        let piece = [0x11, 2, 0x30, 0x33, 0, 1, 5];
        let refusal = check_piece(&piece).expect_err("a refusal");
        assert_eq!(refusal.number(), 16);
        assert_eq!(in_piece(&piece, refusal), Where::Record { index: 1, rule: 0, at: Span::new(3, 7) });
        let sheet = [0x10, 1, 1, 0x20];
        let graph = [0x12, 1, 1, 0, 2, 0x41, 0x42, 2];
        let refusal = check_graph(&sheet, &graph).expect_err("a refusal");
        assert_eq!(refusal.number(), 23);
        let node = Where::Record { index: 1, rule: 0, at: Span::new(6, 8) };
        assert_eq!(in_graph(&sheet, &graph, refusal), node);
    }

    #[test]
    fn spans_are_found() {
        let found = |piece: &[u8]| {
            let refusal = check_piece(piece).expect_err("a refusal");
            (refusal.number(), in_piece(piece, refusal))
        };
        let at = |index, start| Where::Record { index, rule: 0, at: Span::new(start, start + 5) };
        // (5..5?, 9..5?), then a term that is not whole; and the second inside a compound.
        let low = [0x11, 3, 0x34, 0, 5, 0, 5, 0x34, 0, 9, 0, 5, 0x31, 0];
        assert_eq!(found(&low), (32, at(1, 7)));
        let inside = [0x11, 1, 0x33, 0, 7, 2, 0x34, 0, 5, 0, 5, 0x34, 0, 9, 0, 5];
        assert_eq!(found(&inside), (32, at(2, 11)));
        assert_eq!(found(&low[..11]), (14, Where::Rest(7)));
    }

    #[test]
    fn records_without_a_body_are_passed() {
        // (!, #7(!, 9..5?)): the span is the fourth term, after two readings that will never come.
        let piece = [0x11, 2, 0x35, 0x33, 0, 7, 2, 0x35, 0x34, 0, 9, 0, 5];
        let (entries, rest) = entries(&piece, 2, 1, 2);
        let starts: Vec<usize> = entries.iter().map(|entry| entry.at.start).collect();
        assert_eq!((starts, rest), (vec![2, 3, 7, 8], 13));
        let refusal = check_piece(&piece).expect_err("a refusal");
        assert_eq!(refusal.number(), 32);
        let span = Where::Record { index: 3, rule: 0, at: Span::new(8, 13) };
        assert_eq!(in_piece(&piece, refusal), span);
    }

    #[test]
    fn nodes_after_many_cases_are_found() {
        // A number from 0 to 9; a graph with 300 cases, then a rule that the sheet lacks.
        let sheet = [0x10, 1, 1, 0x22, 0, 0, 0, 9];
        let mut graph = vec![0x12, 1, 1, 0, 2, 0x43, 0, 0, 1, 44, 0, 0, 0, 0];
        (0..300u16).for_each(|high| graph.extend([0x46, 0, 0, 0, (high >> 8) as u8, high as u8, 0, 0]));
        graph.extend([0x42, 2]);
        let refusal = check_graph(&sheet, &graph).expect_err("a refusal");
        assert_eq!(refusal.number(), 23);
        let node = Where::Record { index: 1, rule: 0, at: Span::new(2414, 2416) };
        assert_eq!(in_graph(&sheet, &graph, refusal), node);
    }

    #[test]
    fn places_of_an_order_are_found_too() {
        let found = |places: &[u16]| {
            let table: Vec<u8> = places.iter().flat_map(|place| place.to_be_bytes()).collect();
            let refusal = check_order(&table).expect_err("a refusal");
            (refusal.number(), in_order(&table, refusal))
        };
        let at = |index: usize| Where::Record { index, rule: 0, at: Span::new(2 * index, 2 * index + 2) };
        let mut places: Vec<u16> = (0..680).collect();
        assert_eq!(found(&places[1..]), (28, Where::Rest(1358)));
        assert_eq!(found(&[&places[..], &[0]].concat()), (28, Where::Rest(1360)));
        places.swap(300, 301);
        places.swap(676, 675);
        assert_eq!(found(&places), (30, at(675)));
        places[500] = 17;
        assert_eq!(found(&places), (29, at(500)));
        places[400] = 680;
        assert_eq!(found(&places), (29, at(400)));
    }
}
