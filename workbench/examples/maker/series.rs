//! Mistakes over series of symbols (document 02, request 5).

use super::{call as right, Said};
use voltunnis_tests::reference::{check_sheet, own_graph, tidy};
use voltunnis_workbench::notation::{Case, Form, Graph, Kind, Pattern, Sheet};

/// The first id of each series in its stead.
fn first_ids(patterns: &mut [Pattern]) {
    for pattern in patterns {
        match &mut pattern.form {
            Form::Series(low, _) => pattern.form = Form::Symbol(*low),
            Form::Compound(_, arguments) => first_ids(arguments),
            _ => {}
        }
    }
}

/// A call with symbols for the series of its first argument, an accepted sheet.
fn single(name: &str, arguments: &mut [Vec<u8>]) -> Option<Said> {
    if let Some(bytes) = arguments.first_mut().filter(|bytes| check_sheet(bytes).is_ok()) {
        let mut sheet = Sheet::read(bytes).ok()?;
        sheet.rules.iter_mut().for_each(|rule| first_ids(&mut rule.patterns));
        *bytes = sheet.bytes();
    }
    right(name, arguments)
}

/// Puts patterns of a sheet that are to be kept back into its tidy form.
fn put_back(tidied: &mut [Pattern], written: &[Pattern], keeps: fn(&Form) -> bool) {
    for (tidied, written) in tidied.iter_mut().zip(written) {
        match (&mut tidied.form, &written.form) {
            (Form::Compound(_, tidied), Form::Compound(_, written)) => put_back(tidied, written, keeps),
            (_, form) if keeps(form) => tidied.form = form.clone(),
            _ => {}
        }
    }
}

/// The tidy sheet in which some patterns stay as they are written.
pub fn kept(bytes: &[u8], buffer: &mut [u8], keeps: fn(&Form) -> bool) -> Said {
    // No record has more than three times as many bytes when it is tidy.
    let mut room = vec![0; 3 * bytes.len()];
    let length = tidy(bytes, &mut room)?.bytes as usize;
    let [mut tidied, written] =
        [&room[..length], bytes].map(|bytes| Sheet::read(bytes).expect("an accepted sheet"));
    for (tidied, written) in tidied.rules.iter_mut().zip(&written.rules) {
        put_back(&mut tidied.patterns, &written.patterns, keeps);
    }
    let bytes = tidied.bytes();
    buffer.get_mut(..bytes.len()).ok_or(31)?.copy_from_slice(&bytes);
    Ok(bytes.len().to_string())
}

/// Cases in which all ids are cut into runs, as numbers are: those between runs have cases too, which lead where neither
/// does.
fn gaps(cases: &[(Case, u16)], neither: u16) -> Vec<(Case, u16)> {
    let mut all = Vec::new();
    let mut next = Some(0);
    for (case, node) in cases {
        if let (Case::Symbols(low, high), Some(first)) = (case, next) {
            all.extend((first < *low).then(|| (Case::Symbols(first, low - 1), neither)));
            next = high.checked_add(1);
        }
        all.push((*case, *node));
    }
    let runs = all.iter().filter(|(case, _)| matches!(case, Case::Symbols(..))).count();
    if let (1.., Some(first)) = (runs, next) {
        all.insert(runs, (Case::Symbols(first, u16::MAX), neither));
    }
    all
}

/// The sheet's graph, with the cases that this function makes of those of each switch and its node for neither.
pub fn recut(
    name: &str,
    arguments: &mut [Vec<u8>],
    cut: impl Fn(&[(Case, u16)], u16) -> Vec<(Case, u16)>,
) -> Option<Said> {
    let [sheet, buffer] = &mut *arguments else { return None };
    let Some(bytes) = own_graph(sheet) else { return right(name, arguments) };
    let mut graph = Graph::read(&bytes).expect("a graph");
    for node in &mut graph.nodes {
        if let Kind::Switch { neither, cases, .. } = &mut node.kind {
            *cases = cut(cases, *neither);
        }
    }
    let bytes = graph.bytes();
    let Some(written) = buffer.get_mut(..bytes.len()) else { return Some(Err(19)) };
    written.copy_from_slice(&bytes);
    Some(Ok(format!("{} {}", graph.nodes.len(), bytes.len())))
}

/// A call with one mistake.
pub fn call(trap: &str, name: &str, arguments: &mut [Vec<u8>]) -> Option<Said> {
    match (trap, name, &mut *arguments) {
        ("single", "plain" | "walk", _) => single(name, arguments),
        ("gaps", "build", _) => recut(name, arguments, gaps),
        ("kept", "tidy", [sheet, buffer]) => {
            Some(kept(sheet, buffer, |form| matches!(form, Form::Series(..))))
        }
        _ => right(name, arguments),
    }
}
