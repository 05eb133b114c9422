//! Sheets whose graphs have a known size, for the limits and for timing, and the cases with which a stream begins.

use crate::bytes::from_hex;
use crate::random::Random;
use crate::trees::{piece_bytes, Pattern, SheetTree, Term};

/// Document 01's example, f(X, X), f(1, 2) in symbols: 6 nodes in 51 bytes.
pub fn example() -> Vec<u8> {
    from_hex("10 02 02 24 00 24 00 21 00 01 21 00 02")
}

/// The example's pieces: (1, 2), (?, 1), (?, ?), (3, 4).
pub fn example_pieces() -> Vec<Vec<u8>> {
    use Term::{Symbol, Unknown};
    let pieces = [[Symbol(1), Symbol(2)], [Unknown, Symbol(1)], [Unknown, Unknown], [Symbol(3), Symbol(4)]];
    pieces.iter().map(|terms| piece_bytes(terms)).collect()
}

/// Document 01's marked sheet: for numbers (1, 1, 1), (2, 1, 1), (2, 2, 1), (2, 2, 2).
pub fn marked() -> Vec<u8> {
    let rules = [[1, 1, 1], [2, 1, 1], [2, 2, 1], [2, 2, 2]];
    let rule = |numbers: &[u16; 3]| numbers.iter().map(|n| Pattern::Range(*n, *n)).collect();
    SheetTree { arity: 3, rules: rules.iter().map(rule).collect() }.bytes()
}

/// The marked pieces, in numbers: (?, ?, 2), (2, ?, 1), (1, ?, ?), (3, ?, ?), (1, 2, 1).
pub fn marked_pieces() -> Vec<Vec<u8>> {
    let pieces = [[0, 0, 2], [2, 0, 1], [1, 0, 0], [3, 0, 0], [1, 2, 1]];
    let term = |n: &u16| if *n == 0 { Term::Unknown } else { Term::Number(*n) };
    pieces.iter().map(|numbers| piece_bytes(&numbers.iter().map(term).collect::<Vec<_>>())).collect()
}

/// A sheet with its pieces.
pub type WithPieces = (Vec<u8>, Vec<Vec<u8>>);

/// The bytes of sheets, each with its pieces.
fn with_pieces(cases: &[(&str, &[&str])]) -> Vec<WithPieces> {
    let spelled = |pieces: &[&str]| pieces.iter().map(|piece| from_hex(piece)).collect();
    cases.iter().map(|(sheet, pieces)| (from_hex(sheet), spelled(pieces))).collect()
}

/// Sheets, each with pieces in which readings will never come (document 02, request 6).
pub fn nevers() -> Vec<WithPieces> {
    let cases: [(&str, &[&str]); 4] = [
        // (X, X): two of them differ, and one inside a compound shows beside an unknown and beside its like.
        ("10020124002400", &["11023535", "1102303300010135", "110233000101353300010135"]),
        // (_, _) takes them.
        ("1002012020", &["11023535"]),
        // (X, X), (_, 2..3): after the unknown the pair is asked.
        ("10020224002400202200020003", &["11023530"]),
        // (V1, V1), (V0:2..2, V1), (_, #1(V1)): so it is where argument 1 was asked and led to neither.
        ("10020324012401250000020002240120230001012401", &["11023530"]),
    ];
    with_pieces(&cases)
}

/// Sheet, graph and piece, where the graph asks below an argument that will never come: for the part of #1(#5), and
/// for the pair of #1(X) and #1(X). No built graph does. An unknown there suspends, so that the walk tells the two apart.
pub fn below_nevers() -> [[Vec<u8>; 3]; 2] {
    let part = ["10010123000101210005", "12010100044300010001000200034400050005000142014041", "110135"];
    let pair = ["100201230001012400230001012400", "12020100034700010056000100024041", "11023530"];
    [part, pair].map(|case| case.map(from_hex))
}

/// Sheets, each with pieces that have numbers on gauges (document 02, request 7).
pub fn gauges() -> Vec<WithPieces> {
    let cases: [(&str, &[&str]); 4] = [
        // (X, X): 5 and 5 on gauge 0 by its name, on gauge 1, a span that has 5 and 5 on gauge 1, twice gauge 1.
        (
            "10020124002400",
            &["110232000536000005", "110232000536010005", "1102340001000936010005", "11023601000536010005"],
        ),
        // 2..9 on gauge 1 alone: 5 on gauge 1, 5, a span, 5 on gauge 2.
        ("100101270100020009", &["110136010005", "1101320005", "11013400020009", "110136020005"]),
        // 2..9 on gauge 0 by its name, 3..4 on gauge 1: the same value on each.
        ("100102270000020009270100030004", &["1101320003", "110136000003", "110136010003", "11013400030004"]),
        // Anything, 2..3 on gauge 1: cases for pairs of runs, and none that a span takes.
        ("10010220270100020003", &["110136010002", "110136010004", "11013400020003", "110130"]),
    ];
    with_pieces(&cases)
}

/// A variable at each of 3 places, for which every two have to be compared.
pub fn three_alike() -> Vec<u8> {
    SheetTree { arity: 3, rules: vec![vec![Pattern::Variable(0); 3]] }.bytes()
}

/// Rules of 4 readings, alloy, diameter, thickness and weight, each a little above the last, so that
/// it overlaps with the next two: 80 nodes in 16,137 bytes for 8 rules, 312 in 164,697 for 16. As a span may take
/// any rules that stand together, 28 rules have 960 nodes, and 32 too many.
pub fn coins(count: u16) -> Vec<u8> {
    let range = |at: u16, step: u16, width: u16| Pattern::Range(at * step, at * step + width);
    let coin =
        |at: u16| vec![Pattern::Symbol(at % 4), range(at, 40, 90), range(at / 2, 9, 8), range(at, 25, 40)];
    SheetTree { arity: 4, rules: (0..count).map(coin).collect() }.bytes()
}

/// Rules of 4 series each, which overlap with those of their neighbours, by more at each place: 191 nodes
/// in 7,301 bytes for 32 rules.
pub fn series_4(count: u16) -> Vec<u8> {
    let series = |at: u16, place: u16| Pattern::Series(at * 20, at * 20 + 10 + 15 * place);
    let rule = |at: u16| (1..=4).map(|place| series(at, place)).collect();
    SheetTree { arity: 4, rules: (0..count).map(rule).collect() }.bytes()
}

/// Series that overlap with all others at 1 place: 63 runs for 32 rules, 127 for 64.
pub fn staggered(count: u16) -> Vec<u8> {
    let rule = |at: u16| vec![Pattern::Series(at, 1000 + at)];
    SheetTree { arity: 1, rules: (0..count).map(rule).collect() }.bytes()
}

/// Rules that want the number 0 or 1 at random at each of 8 places: 907 nodes for 32 rules.
pub fn zeros_and_ones(count: u16) -> Vec<u8> {
    let mut random = Random::new(3);
    let mut bit = || {
        let bit = random.below(2) as u16;
        Pattern::Range(bit, bit)
    };
    let rules = (0..count).map(|_| (0..8).map(|_| bit()).collect()).collect();
    SheetTree { arity: 8, rules }.bytes()
}

/// Rules made of a range each, which is inside that of the rule before.
fn nested(count: u16, rule: impl Fn(u16, u16) -> Vec<Pattern>) -> Vec<u8> {
    let rules: Vec<_> = (0..count).map(|at| rule(at, 1000 - at)).collect();
    SheetTree { arity: rules[0].len() as u8, rules }.bytes()
}

/// Nested ranges from 1 on at 1 place: 4 nodes, one of them a switch with as many cases as there may be, 2,145 for
/// 32 rules, 8,385 for 64.
pub fn nested_1(count: u16) -> Vec<u8> {
    nested(count, |low, high| vec![Pattern::Range(low + 1, high)])
}

/// Nested ranges from 0 on at 8 places: 221 nodes in 1,329,291 bytes for 32 rules, 445 in 10,203,627 for 64.
pub fn nested_8(count: u16) -> Vec<u8> {
    nested(count, |low, high| vec![Pattern::Range(low, high); 8])
}

/// Nested ranges on the gauges 0 to 3 in turn, the first by its name.
fn on_4_gauges(count: u16, places: usize) -> Vec<u8> {
    nested(count, |low, high| vec![Pattern::Gauged((low % 4) as u8, low + 1, high); places])
}

/// Nested ranges on 4 gauges at 1 place: 7 nodes in 4,920 bytes for 32 rules, 17,976 for 64. Each gauge is cut by itself,
/// into 17 runs for 8 rules on it, 33 for 16.
pub fn gauges_1(count: u16) -> Vec<u8> {
    on_4_gauges(count, 1)
}

/// Nested ranges on 4 gauges at 8 places: 210 nodes in 157,051 bytes for 32 rules, 434 in 911,323 for 64.
pub fn gauges_8(count: u16) -> Vec<u8> {
    on_4_gauges(count, 8)
}

/// Nested ranges at 16 places inside compounds: 335 nodes in 382,857 bytes for 16 rules, 687 in 2,832,713 for 32.
pub fn nested_16(count: u16) -> Vec<u8> {
    nested(count, |low, high| vec![Pattern::Compound(1, vec![Pattern::Range(low, high); 2]); 8])
}

/// Nested ranges from 1 on at 17 places or more, 10 of them inside the first argument. Its three compounds are asked
/// first, with all rules live. At each place but the first of a range every number of rules from 2 on is live in
/// some key, and cuts all numbers into as many runs as it can. So many of the other arguments are compounds of 4 ranges.
fn longest(rules: u16, wide: usize) -> Vec<u8> {
    nested(rules, |low, high| {
        let ranges = |count| vec![Pattern::Range(low + 1, high); count];
        let with_3 = |first: Pattern| Pattern::Compound(1, [vec![first], ranges(3)].concat());
        let four = Pattern::Compound(1, ranges(4));
        let mut rule = vec![with_3(with_3(four.clone()))];
        rule.extend(vec![four; wide]);
        rule.extend(ranges(7 - wide));
        rule
    })
}

/// 32 rules with a long graph: 999 nodes in 5,512,655 bytes.
pub fn longest_32() -> Vec<u8> {
    longest(32, 4)
}

/// 64 rules with a long graph: 1,015 nodes in 23,778,999 bytes.
pub fn longest_64() -> Vec<u8> {
    longest(64, 0)
}

/// A sheet with exactly 1,024 nodes, in 32,730 bytes.
pub fn nodes_1024() -> Vec<u8> {
    from_hex(
        "10080b2021000221000220210001202100012400202021000221000221000220202024002020220001000220\
         2100012100022100012022000100022100022100022100012020220001000221000220210002202100012200\
         0100022100022200010002220001000224012400202100012100022400210002210001202401210001210002\
         2401202100022401240024012100012021000120210002210002202021000121000124002024002100022020\
         202100022100012021000120202100012021000121000221000120",
    )
}

/// A small sheet whose graph would have exactly 1,025 nodes.
pub fn nodes_1025() -> Vec<u8> {
    from_hex(
        "1008062401240124012100012401202401240121000324002400202024002200040006240020240121000321\
         0003202100022400210001240022000400062100022400240024002200020004240022000200032401210002\
         2100022200040005240121000124012400220004000524012401220004000520202401",
    )
}

/// f(X, X, X, X, X, X, X, X) and f(1, 1, 1, 1, 1, 1, 1, 1), with 28 pairs: 39 nodes in 390 bytes.
pub fn eight_alike() -> Vec<u8> {
    let rules = [Pattern::Variable(0), Pattern::Symbol(1)].map(|pattern| vec![pattern; 8]);
    SheetTree { arity: 8, rules: rules.to_vec() }.bytes()
}
