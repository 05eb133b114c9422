//! Mistakes over readings that will never come (document 02, request 6).

use super::{call as right, size, Said};
use voltunnis_tests::reference::build::{nodes_asking, write};
use voltunnis_tests::reference::graph::MOST_NODES;
use voltunnis_tests::reference::keys::Asking;
use voltunnis_tests::reference::{check_piece, check_sheet, sheet};
use voltunnis_tests::results::Built;
use voltunnis_workbench::notation::{Piece, Sheet, Term, What};
use voltunnis_workbench::sheet_tests::SheetTests;
use voltunnis_workbench::truth::{equal, is_never, wanted, Truth};

/// Unknowns in the stead of readings that will never come.
fn hoped(terms: &mut [Term]) {
    for term in terms {
        match &mut term.what {
            What::Never => term.what = What::Unknown,
            What::Compound(_, arguments) => hoped(arguments),
            _ => {}
        }
    }
}

/// A call with unknowns for what will never come in its last argument, an accepted piece.
fn patient(name: &str, arguments: &mut [Vec<u8>]) -> Option<Said> {
    if let Some(bytes) = arguments.last_mut().filter(|bytes| check_piece(bytes).is_ok()) {
        let mut piece = Piece::read(bytes).ok()?;
        hoped(&mut piece.terms);
        *bytes = piece.bytes();
    }
    right(name, arguments)
}

/// Two readings that will never come are held equal.
fn alike(piece: &Piece, p: u16, q: u16) -> Truth {
    match [p, q].into_iter().all(|place| is_never(piece, place)) {
        true => Truth::Holds,
        false => equal(piece, p, q),
    }
}

/// What will never come inside a compound is an unknown there.
fn shallow(piece: &Piece, p: u16, q: u16) -> Truth {
    if [p, q].into_iter().any(|place| is_never(piece, place)) {
        return Truth::Contradicted;
    }
    let mut late = piece.clone();
    hoped(&mut late.terms);
    equal(&late, p, q)
}

/// The plain answer with terms compared by this function.
pub fn plain(arguments: &mut [Vec<u8>], same: impl Fn(&Piece, u16, u16) -> Truth) -> Option<Said> {
    let [sheet, piece] = &*arguments else { return None };
    let (Ok(size), Ok(made)) = (check_sheet(sheet), check_piece(piece)) else {
        return right("plain", arguments);
    };
    if size.arity != made.arity {
        return Some(Err(20));
    }
    let (sheet, piece) = (Sheet::read(sheet).ok()?, Piece::read(piece).ok()?);
    let mut open = Vec::new();
    for (rule, number) in SheetTests::of(&sheet).rules.iter().zip(1..) {
        let places = rule.wants.iter().map(|(place, want)| wanted(&piece, *place, *want));
        let outcomes: Vec<Truth> =
            places.chain(rule.pairs.iter().map(|(p, q)| same(&piece, *p, *q))).collect();
        if !outcomes.contains(&Truth::Contradicted) {
            open.push((number, outcomes.contains(&Truth::NotKnown)));
        }
    }
    Some(Ok(match open[..] {
        [] => "fail 0".into(),
        [(rule, true)] => format!("execute {rule}"),
        [(rule, false)] => format!("commit {rule}"),
        _ => "suspend 0".into(),
    }))
}

/// The graph in which an unknown settles the pairs of its place, too.
fn settled(bytes: &[u8], buffer: &mut [u8]) -> Said {
    let sheet = sheet::Sheet::read(bytes)?;
    let asking = Asking::new(&sheet, (0..sheet.tests.count()).collect()).settling_pairs();
    let nodes = nodes_asking(&asking, sheet.rules.len(), MOST_NODES)?;
    let bytes = write(&sheet, &nodes, buffer)?;
    Ok(size(Built { nodes: nodes.len() as u16, bytes }))
}

/// A call with one mistake.
pub fn call(trap: &str, name: &str, arguments: &mut [Vec<u8>]) -> Option<Said> {
    match (trap, name, &mut *arguments) {
        ("patient", "plain" | "walk", _) => patient(name, arguments),
        ("alike", "plain", _) => plain(arguments, alike),
        ("shallow", "plain", _) => plain(arguments, shallow),
        ("settled", "build", [sheet, buffer]) => Some(settled(sheet, buffer)),
        _ => right(name, arguments),
    }
}
