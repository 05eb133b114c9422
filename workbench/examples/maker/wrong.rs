//! The maker's wrong twin: `maker --wrong TRAP` makes one mistake, which `vt conform` finds.
//!
//! - `chain` links a variable's places in a chain only.
//! - `hasty` commits at one live rule without making its tests.
//! - `drop` drops a rule because its test is not known.
//! - `coarse` takes a span of a piece for an unknown.
//! - `first` takes the first case that contains a number or span, not the narrowest.
//! - `single` takes a series for its first symbol.
//! - `gaps` gives a case to ids that no rule accepts, too.
//! - `kept` leaves a series of one symbol a series in a tidy sheet.
//! - `patient` takes a reading that will never come for an unknown.
//! - `alike` holds two readings that will never come equal.
//! - `shallow` overlooks what will never come inside a compound, where it compares terms.
//! - `settled` asks for no pair after an unknown at one of its places.
//! - `blind` holds equal values on two gauges equal.
//! - `mingled` cuts every gauge where one of them is cut.
//! - `lean` has cases for one run only of a named gauge, none for pairs of runs.
//! - `ground` has a case for gauge 0 where only named gauges are asked for.
//! - `zero` leaves a range the gauge 0 that it names in a tidy sheet.
//! - `lowest` asks the lowest test under every reading order.
//! - `hurried` refuses by question 30 before it has asked 29 over the whole table.
//! - `drift` puts places down by their positions alone, whether or not their parent is down.
//! - `higher` puts the higher of two places at one position down first.
//! - `late` gives each of many pieces the result of the one before it.
//! - `eager` takes the bytes of a piece that it could not read.
//! - `spill` writes a zero after a graph, where the buffer is longer.
//! - `touch` writes to the buffer before it looks whether the graph fits.
//! - `number` gives a number to every variable of a tidy sheet, also to one that stands once.
//! - `panic` ends on a sheet with a range whose low is above its high.
//! - `stale` gives each accepted piece the arity of the first.
//! - `mute` says nothing at all, `chatter` says each reply twice, `half` knows no graphs.

use super::{call as right, gauges, nevers, orders, series, Said};
use std::collections::BTreeSet;
use std::sync::OnceLock;
use voltunnis_tests::generate::trees::{piece_bytes, read_piece, SheetTree, Term};
use voltunnis_tests::reference::nodes::{Case, Node};
use voltunnis_tests::reference::piece::{Found, Piece};
use voltunnis_tests::reference::sheet::{Rule, Sheet};
use voltunnis_tests::reference::truth::{ends, Truth};
use voltunnis_tests::reference::{build, graph, plain, tidy, walk};

type Result<T> = std::result::Result<T, u8>;

/// The sheet with the pairs of neighbours only.
fn chained(bytes: &[u8]) -> Result<Sheet> {
    let mut sheet = Sheet::read(bytes)?;
    for rule in &mut sheet.rules {
        let all = rule.pairs.clone();
        let between = |p, q| all.iter().any(|(a, b)| *a == p && all.contains(&(*b, q)));
        rule.pairs.retain(|(p, q)| !between(*p, *q));
    }
    let pairs: BTreeSet<_> = sheet.rules.iter().flat_map(|rule| rule.pairs.iter().copied()).collect();
    sheet.tests.pairs = pairs.into_iter().collect();
    Ok(sheet)
}

/// Sheet and piece, if they have the same arity.
fn both(sheet: Sheet, piece: &[u8]) -> Result<(Sheet, Piece)> {
    let piece = Piece::read(piece)?;
    if sheet.arity == piece.arity {
        Ok((sheet, piece))
    } else {
        Err(20)
    }
}

/// The calls that chained pairs change.
fn chain(name: &str, arguments: &mut [Vec<u8>]) -> Option<Said> {
    let sheet = match arguments.first().map(|bytes| chained(bytes)) {
        Some(Ok(sheet)) => sheet,
        _ => return right(name, arguments),
    };
    Some(match (name, &mut *arguments) {
        ("check_sheet", _) => Ok(format!("{} {} {}", sheet.arity, sheet.rules.len(), sheet.tests.count())),
        ("plain", [_, piece]) => both(sheet, piece).map(|(sheet, piece)| {
            let answer = plain::answer(&sheet, &piece);
            format!("{} {}", answer.word.name(), answer.rule)
        }),
        ("build", [_, buffer]) => build::nodes(&sheet).and_then(|nodes| {
            let bytes = build::write(&sheet, &nodes, buffer)?;
            Ok(format!("{} {bytes}", nodes.len()))
        }),
        ("walk", [_, bytes, piece]) => walked(sheet, bytes, piece),
        _ => return right(name, arguments),
    })
}

fn walked(sheet: Sheet, bytes: &[u8], piece: &[u8]) -> Result<String> {
    let (sheet, piece) = both(sheet, piece)?;
    let nodes = graph::read(&sheet, bytes)?;
    walk::walk(&sheet, &nodes, &piece).map(|answer| answer.to_string())
}

/// The walk whose execute nodes find no test to make.
fn hasty(sheet: &[u8], graph: &[u8], piece: &[u8]) -> Result<String> {
    let mut sheet = Sheet::read(sheet)?;
    sheet.rules.iter_mut().for_each(|rule| *rule = Rule::default());
    walked(sheet, graph, piece)
}

/// The plain answer from the rules that surely hold.
fn dropping(sheet: &[u8], piece: &[u8]) -> Result<String> {
    let (sheet, piece) = both(Sheet::read(sheet)?, piece)?;
    let holds = |rule: &&Rule| plain::rule_truth(&piece, rule) == Truth::Holds;
    let left = sheet.rules.iter().filter(holds).count();
    let first = sheet.rules.iter().position(|rule| holds(&rule)).map_or(0, |at| at + 1);
    Ok(match left {
        0 => "fail 0".into(),
        1 => format!("commit {first}"),
        _ => "suspend 0".into(),
    })
}

/// Unknowns in the stead of spans.
fn blurred(terms: Vec<Term>) -> Vec<Term> {
    let blurred = |term| match term {
        Term::Span(..) => Term::Unknown,
        Term::Compound(id, arguments) => Term::Compound(id, self::blurred(arguments)),
        other => other,
    };
    terms.into_iter().map(blurred).collect()
}

/// A call with unknowns for the spans of its last argument, an accepted piece.
fn coarse(name: &str, arguments: &mut [Vec<u8>]) -> Option<Said> {
    if let Some(piece) = arguments.last_mut().filter(|piece| Piece::read(piece).is_ok()) {
        let (terms, _) = read_piece(piece)?;
        *piece = piece_bytes(&blurred(terms));
    }
    right(name, arguments)
}

/// The walk over switches that have, of the cases that contain a number or span, the first one only.
fn first_case(sheet: &[u8], graph: &[u8], piece: &[u8]) -> Result<String> {
    let (sheet, piece) = both(Sheet::read(sheet)?, piece)?;
    let mut nodes = graph::read(&sheet, graph)?;
    for node in &mut nodes {
        let Node::Switch { place, cases, .. } = node else { continue };
        let Found::Term(cells) = piece.find(*place) else { continue };
        let Some(found) = ends(cells[0].term) else { continue };
        let contains = |case: &Case| match *case {
            Case::Numbers { gauge, low, high, .. } => {
                gauge == found.gauge && low <= found.first && found.last <= high
            }
            _ => false,
        };
        let first = cases.iter().position(contains);
        cases.truncate(first.map_or(cases.len(), |at| at + 1));
        cases.drain(..first.unwrap_or(0));
    }
    walk::walk(&sheet, &nodes, &piece).map(|answer| answer.to_string())
}

/// The tidy sheet in which each variable stands as if it were repeated.
fn numbered(sheet: &[u8], buffer: &mut [u8]) -> Result<String> {
    Sheet::read(sheet)?;
    let (mut tree, _) = SheetTree::read(sheet).ok_or(4)?;
    for rule in &mut tree.rules {
        let mut variables = tidy::variables(rule);
        variables.values_mut().for_each(|variable| variable.places += 1);
        *rule = tidy::rule(rule, &variables);
    }
    let bytes = tree.bytes();
    buffer.get_mut(..bytes.len()).ok_or(31)?.copy_from_slice(&bytes);
    Ok(bytes.len().to_string())
}

/// The two fields of a reply, if it is accepted.
fn fields(said: &Option<Said>) -> Option<[usize; 2]> {
    let (one, two) = said.as_ref()?.as_ref().ok()?.split_once(' ')?;
    Some([one.parse().ok()?, two.parse().ok()?])
}

/// The results of many pieces, each in the place of the next.
fn late(name: &str, arguments: &mut [Vec<u8>]) -> Option<Said> {
    let result = right(name, arguments);
    let written = fields(&result).map_or(0, |[results, _]| 16 * results);
    arguments[3][..written].rotate_right(16.min(written));
    result
}

/// The run over many pieces that takes all bytes where it could not read a piece.
fn eager(name: &str, arguments: &mut [Vec<u8>]) -> Option<Said> {
    let result = right(name, arguments);
    let Some([results, bytes]) = fields(&result) else { return result };
    let last = arguments[3][..16 * results].chunks(16).last().map_or(0, |last| last[0]);
    let taken = if matches!(last, 12..=16 | 32) { arguments[2].len() } else { bytes };
    Some(Ok(format!("{results} {taken}")))
}

/// The graph, and a zero after it.
fn spill(name: &str, arguments: &mut [Vec<u8>]) -> Option<Said> {
    let result = right(name, arguments);
    let end = fields(&result).map(|[_, bytes]| bytes);
    if let Some(byte) = end.and_then(|end| arguments[1].get_mut(end)) {
        *byte = 0;
    }
    result
}

/// The arity of the first accepted piece, whichever is asked about.
fn stale(name: &str, arguments: &mut [Vec<u8>]) -> Option<Said> {
    static FIRST: OnceLock<String> = OnceLock::new();
    let fresh = right(name, arguments)?;
    Some(fresh.map(|arity| FIRST.get_or_init(|| arity).clone()))
}

/// A call with one mistake.
pub fn call(trap: &str, name: &str, arguments: &mut [Vec<u8>]) -> Option<Said> {
    match (trap, name, &mut *arguments) {
        ("chain", ..) => chain(name, arguments),
        ("hasty", "walk", [sheet, graph, piece]) => Some(hasty(sheet, graph, piece)),
        ("drop", "plain", [sheet, piece]) => Some(dropping(sheet, piece)),
        ("coarse", "plain" | "walk", _) => coarse(name, arguments),
        ("first", "walk", [sheet, graph, piece]) => Some(first_case(sheet, graph, piece)),
        ("single" | "gaps" | "kept", ..) => series::call(trap, name, arguments),
        ("patient" | "alike" | "shallow" | "settled", ..) => nevers::call(trap, name, arguments),
        ("blind" | "mingled" | "lean" | "ground" | "zero", ..) => gauges::call(trap, name, arguments),
        ("lowest" | "hurried" | "drift" | "higher", ..) => orders::call(trap, name, arguments),
        ("late", "walk_all", _) => late(name, arguments),
        ("eager", "walk_all", _) => eager(name, arguments),
        ("spill", "build", _) => spill(name, arguments),
        ("touch", "build", [_, buffer]) => {
            buffer.iter_mut().take(1).for_each(|byte| *byte = 0x12);
            right(name, arguments)
        }
        ("number", "tidy", [sheet, buffer]) => Some(numbered(sheet, buffer)),
        ("panic", ..) => {
            let result = right(name, arguments);
            assert!(result != Some(Err(7)), "low is above high");
            result
        }
        ("stale", "check_piece", _) => stale(name, arguments),
        ("mute", ..) => loop {
            std::thread::park();
        },
        ("chatter", ..) => {
            println!("unknown");
            right(name, arguments)
        }
        ("half", "check_graph" | "build" | "build_ordered" | "rewrite" | "walk" | "walk_all", _) => None,
        _ => right(name, arguments),
    }
}
