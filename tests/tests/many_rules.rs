//! Sheets of 33 to 64 rules (document 02, request 9): every rule up to 64 as an answer of each call, 64 rules of
//! 64 tests each, switches of 8,385 cases, and question 3 in each call that reads a sheet.

use voltunnis_tests::both::{
    build, build_ordered, check_graph, check_sheet, enough, lent, plain, rewrite, tidied, tidy, walk,
    walk_all,
};
use voltunnis_tests::bytes::to_hex;
use voltunnis_tests::generate::known;
use voltunnis_tests::generate::orders::{reversed, table};
use voltunnis_tests::generate::trees::{piece_bytes, Pattern, SheetTree, Term};
use voltunnis_tests::results::{Built, GraphSize, Plain, Refusal, Run, SheetSize, Word};

use Term::{Number, Span, Symbol, Unknown};

/// The graph of an accepted sheet.
fn graph(sheet: &[u8]) -> Vec<u8> {
    let (built, mut buffer) = build(sheet, enough(sheet, None));
    buffer.truncate(built.expect("a graph").bytes as usize);
    buffer
}

/// What the walk says of a piece, which is also the plain answer.
#[track_caller]
fn said(sheet: &[u8], graph: &[u8], terms: &[Term]) -> String {
    let piece = piece_bytes(terms);
    let answer = walk(sheet, graph, &piece).expect("an answer");
    assert_eq!(plain(sheet, &piece), Ok(Plain { word: answer.walk.word, rule: answer.walk.rule }));
    answer.to_string()
}

/// 64 rules, each of which wants two symbols of its own: rule i wants both to be i.
fn each_its_own() -> Vec<u8> {
    let rule = |i| vec![Pattern::Symbol(i), Pattern::Symbol(i)];
    SheetTree { arity: 2, rules: (1..=64).map(rule).collect() }.bytes()
}

#[test]
fn each_of_64_rules_commits_executes_and_fails() {
    let sheet = each_its_own();
    assert_eq!(check_sheet(&sheet), Ok(SheetSize { arity: 2, rules: 64, tests: 2 }));
    let graph = graph(&sheet);
    // Two switches of 64 cases, an execute for each rule, fail and suspend.
    assert_eq!(check_graph(&sheet, &graph), Ok(GraphSize { nodes: 68 }));
    assert_eq!(graph.len(), 5 + 2 * (9 + 64 * 7) + 64 * 2 + 2);
    let backwards = build_ordered(&sheet, &table(&reversed()), graph.len());
    assert_eq!(backwards.0, Ok(Built { nodes: 68, bytes: graph.len() as u32 }));
    for i in 1..=64 {
        let said = |terms: [Term; 2]| said(&sheet, &graph, &terms);
        assert_eq!(said([Symbol(i), Symbol(i)]), format!("commit {i} 1 0000000000000000"));
        assert_eq!(said([Symbol(i), Unknown]), format!("execute {i} 1 0000000000000002"));
        assert_eq!(said([Unknown, Symbol(i)]), format!("execute {i} 2 0000000000000001"));
        assert_eq!(said([Symbol(i), Symbol(65)]), "fail 0 1 0000000000000000");
        assert_eq!(said([Symbol(i), Number(i)]), "fail 0 1 0000000000000000");
        assert_eq!(said([Unknown, Span(1, i)]), "fail 0 2 0000000000000000");
    }
    assert_eq!(said(&sheet, &graph, &[Symbol(65), Unknown]), "fail 0 1 0000000000000000");
    assert_eq!(said(&sheet, &graph, &[Unknown, Unknown]), "suspend 0 2 0000000000000003");
}

#[test]
fn many_pieces_get_each_of_64_rules() {
    let sheet = each_its_own();
    let pieces: Vec<u8> = (1..=64)
        .flat_map(|i| piece_bytes(&[Symbol(i), if i % 2 == 0 { Symbol(i) } else { Unknown }]))
        .collect();
    let (run, results) = walk_all(&sheet, &graph(&sheet), &pieces, 16 * 64);
    assert_eq!(run, Ok(Run { results: 64, bytes: pieces.len() as u32 }));
    for (i, result) in (1..=64).zip(results.chunks(16)) {
        let (word, wait) = if i % 2 == 0 { (Word::Commit, 0) } else { (Word::Execute, 2) };
        assert_eq!(to_hex(result), format!("00{:02x}{i:02x}0100000000{wait:016x}", word as u8));
    }
}

#[test]
fn another_makers_graph_may_execute_64_and_no_more() {
    let sheet = each_its_own();
    let executes = |rule| vec![0x12, 2, 64, 0, 1, 0x42, rule];
    for rule in [32, 33, 64] {
        assert_eq!(check_graph(&sheet, &executes(rule)), Ok(GraphSize { nodes: 1 }));
        assert_eq!(rewrite(&sheet, &executes(rule), 7).1, executes(rule));
        let both = [Symbol(rule.into()), Symbol(rule.into())];
        let piece = piece_bytes(&both);
        assert_eq!(walk(&sheet, &executes(rule), &piece).map(|answer| answer.walk.rule), Ok(rule));
    }
    for rule in [0, 65, 255] {
        assert_eq!(check_graph(&sheet, &executes(rule)), Err(23));
        assert_eq!(rewrite(&sheet, &executes(rule), 7), (Err(23), lent(7)));
    }
    // A graph's rule count is the sheet's.
    assert_eq!(check_graph(&sheet, &[0x12, 2, 63, 0, 1, 0x41]), Err(21));
}

/// A tree of 21 compounds, its leaves this pattern or term.
fn full<T: Clone>(compound: fn(u16, Vec<T>) -> T, leaf: T) -> T {
    (1..4).fold(leaf, |below, _| compound(1, vec![below; 4]))
}

#[test]
fn sixty_four_rules_may_have_64_tests_each() {
    // 63 compounds and a symbol, which is another one in the last rule.
    let trees = vec![full(Pattern::Compound, Pattern::Anything); 3];
    let rule = |i| [trees.clone(), vec![Pattern::Symbol(1 + u16::from(i == 64))]].concat();
    let sheet = SheetTree { arity: 4, rules: (1..=64).map(rule).collect() }.bytes();
    assert_eq!(check_sheet(&sheet), Ok(SheetSize { arity: 4, rules: 64, tests: 64 }));
    assert!(tidied(&sheet) == sheet, "a tidy sheet");
    let graph = graph(&sheet);
    let whole = full(Term::Compound, Unknown);
    let said =
        |first: &Term, last| said(&sheet, &graph, &[first.clone(), whole.clone(), whole.clone(), last]);
    assert_eq!(said(&whole, Symbol(2)), "commit 64 64 0000000000000000");
    assert_eq!(said(&whole, Symbol(1)), "suspend 0 64 0000000000000000");
    assert_eq!(said(&whole, Symbol(3)), "fail 0 64 0000000000000000");
    assert_eq!(said(&whole, Unknown), "suspend 0 64 8000000000000000");
    assert_eq!(said(&Unknown, Symbol(2)), "execute 64 44 00000000001fffff");
    assert_eq!(said(&Unknown, Unknown), "suspend 0 44 8000000000000001");
}

/// What 64 nested ranges say of a number from low to high, the range of rule i being i to 1001 - i: some number of it
/// meets a rule whose range has one, all do where the range holds it whole.
fn nested_says(low: u16, high: u16) -> String {
    let met = |i: &u16| *i <= high && low <= 1001 - i;
    let part = |i: u16| low < i || 1001 - i < high;
    let met: Vec<u16> = (1..=64).filter(met).collect();
    match met[..] {
        [] => "fail 0 1 0000000000000000".into(),
        [only] if part(only) => format!("execute {only} 1 0000000000000001"),
        [only] => format!("commit {only} 1 0000000000000000"),
        _ => format!("suspend 0 1 {:016x}", u64::from(met.iter().any(|i| part(*i)))),
    }
}

#[test]
fn of_64_nested_ranges_all_cases_are_taken() {
    let sheet = known::nested_1(64);
    let graph = graph(&sheet);
    assert_eq!(graph[8..10], 8_385_u16.to_be_bytes());
    for number in 0..=1002 {
        assert_eq!(said(&sheet, &graph, &[Number(number)]), nested_says(number, number), "{number}");
    }
    let ends: Vec<u16> = (0..=65).chain([500]).chain(936..=1002).chain([0xffff]).collect();
    // Each pair of runs has a span that begins and ends in it.
    let (mut pieces, mut lines) = (Vec::new(), Vec::new());
    for (at, low) in ends.iter().enumerate() {
        for high in &ends[at..] {
            pieces.extend(piece_bytes(&[Span(*low, *high)]));
            lines.push(nested_says(*low, *high));
        }
    }
    let (run, results) = walk_all(&sheet, &graph, &pieces, 16 * lines.len());
    assert_eq!(run, Ok(Run { results: lines.len() as u32, bytes: pieces.len() as u32 }));
    for (line, result) in lines.iter().zip(results.chunks(16)) {
        let word =
            (1..=4).filter_map(Word::from_number).find(|word| *word as u8 == result[1]).expect("a word");
        let wait = u64::from_be_bytes(result[8..].try_into().expect("8 bytes"));
        assert_eq!(format!("{} {} {} {wait:016x}", word.name(), result[2], result[3]), *line);
    }
    assert_eq!(said(&sheet, &graph, &[Unknown]), "suspend 0 1 0000000000000001");
}

#[test]
fn the_last_of_64_rules_may_be_the_only_one_left() {
    // Ranges that begin one after another: the last rule's first, the first rule's last.
    let rule = |i: u16| vec![Pattern::Range(64 - i, 100), Pattern::Symbol(i)];
    let sheet = SheetTree { arity: 2, rules: (1..=64).map(rule).collect() }.bytes();
    let graph = graph(&sheet);
    assert_eq!(said(&sheet, &graph, &[Number(0), Symbol(64)]), "commit 64 1 0000000000000000");
    assert_eq!(said(&sheet, &graph, &[Number(0), Unknown]), "execute 64 1 0000000000000002");
    assert_eq!(said(&sheet, &graph, &[Number(0), Symbol(63)]), "fail 0 1 0000000000000000");
    for i in 1..=64 {
        let said = |first, i| said(&sheet, &graph, &[first, Symbol(i)]);
        assert_eq!(said(Number(100), i), format!("commit {i} 2 0000000000000000"));
        assert_eq!(said(Unknown, i), format!("execute {i} 2 0000000000000001"));
        assert_eq!(said(Span(64, 100), i), format!("commit {i} 2 0000000000000000"));
        assert_eq!(said(Span(64, 101), i), format!("execute {i} 2 0000000000000001"));
    }
}

/// What each call that reads a sheet says of so many rules without tests, 0 if it is accepted.
fn every_call(rules: u8) -> Vec<u8> {
    let sheet = [vec![0x10, 1, rules], vec![0x20; rules.into()]].concat();
    let (graph, piece) = ([0x12, 1, rules, 0, 1, 0x41], [0x11, 1, 0x30]);
    let number = |result: Result<(), Refusal>| result.err().unwrap_or(0);
    vec![
        number(check_sheet(&sheet).map(drop)),
        number(plain(&sheet, &piece).map(drop)),
        number(check_graph(&sheet, &graph).map(drop)),
        number(rewrite(&sheet, &graph, 100).0.map(drop)),
        number(build(&sheet, 100).0.map(drop)),
        number(build_ordered(&sheet, &table(&reversed()), 100).0.map(drop)),
        number(tidy(&sheet, 100).0.map(drop)),
        number(walk(&sheet, &graph, &piece).map(drop)),
        number(walk_all(&sheet, &graph, &piece, 100).0.map(drop)),
    ]
}

#[test]
fn every_call_takes_64_rules_and_refuses_65_by_3() {
    for rules in [33, 63, 64] {
        assert_eq!(every_call(rules), [0; 9], "{rules} rules");
    }
    for rules in [65, 66, 128, 255] {
        assert_eq!(every_call(rules), [3; 9], "{rules} rules");
    }
}
