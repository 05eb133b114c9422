//! `vt check`: is it accepted?

use super::args::{Args, Opt, BYTES, JSON};
use super::input::{graph_bytes, GraphInput, SheetInput};
use super::order::OrderInput;
use super::out::Out;
use super::pieces::pieces;
use super::refused;
use super::source::{About, Source};
use super::stop::Stop;
use super::track::{track, track_says, POSITIONS};
use super::Command;
use crate::json::{Fields, Json};
use crate::notation::{count, places, Names};
use crate::sheet_tests::{SheetTests, Test};

/// `--sheet`
pub const SHEET: Opt =
    Opt { long: "sheet", short: None, value: Some("SHEET"), help: "the sheet of the graphs and pieces" };

pub const COMMAND: Command = Command {
    name: "check",
    usage: "FILE..",
    summary: "ask whether sheets, pieces, graphs and orders are accepted",
    about: "Says in a line what each file holds, or which question got a no, and where.\n\
            A graph is checked with its sheet: --sheet. Pieces may be, and must then have its arity. Of a reading\n\
            order with a sheet is said in which order its places are asked, and how large its graph is then. Of a\n\
            track drawing is said at how many positions its places stand.",
    options: &[SHEET, BYTES, POSITIONS, JSON],
    examples: &[
        ("vt check coins.sheet", "is the sheet accepted, and how large is its graph?"),
        ("vt check --sheet coins.sheet theirs.bin", "is another maker's graph accepted?"),
        ("vt check --sheet coins.sheet track.order", "what does the sheet ask in this order?"),
    ],
    run,
};

fn run(args: &Args, out: &Out) -> Result<(), Stop> {
    if args.rest.is_empty() {
        return Err(args.wrong("expected a file"));
    }
    let sheet = args.value(SHEET).map(|path| SheetInput::load(path, args)).transpose()?;
    let mut status = 0;
    let mut said = Vec::new();
    for path in &args.rest {
        match one(path, args, sheet.as_ref()) {
            Ok((line, json)) => match args.has(JSON) {
                true => said.push(json),
                false => out.say(&format!("{}: {line}\n", out.bold(path)))?,
            },
            Err(stop) => {
                status = status.max(stop.status);
                match (args.has(JSON), stop.json) {
                    (true, Some(json)) => said.push(json),
                    _ => out.complain(&stop.message),
                }
            }
        }
    }
    if args.has(JSON) {
        out.json(&Json::List(said))?;
    }
    if status == 0 {
        Ok(())
    } else {
        Err(Stop::said(status))
    }
}

/// What one file holds, in a line and for programs.
fn one(path: &str, args: &Args, sheet: Option<&SheetInput>) -> Result<(String, Json), Stop> {
    let source = Source::load(path, args)?;
    let accepted = |kind: &str, more: Fields| {
        let first = [("file", Json::text(path)), ("kind", Json::text(kind)), ("accepted", Json::Bool(true))];
        Json::Object(first.into_iter().chain(more).collect())
    };
    match source.about() {
        About::Sheet => {
            let (line, more) = sheet_says(&SheetInput::of(source)?);
            Ok((line, accepted("sheet", more)))
        }
        About::Pieces => {
            let (line, more) = pieces_say(&source, sheet)?;
            Ok((line, accepted("pieces", more)))
        }
        About::Graph => {
            let sheet = sheet
                .ok_or_else(|| args.wrong(&format!("{path} is a graph: add its sheet, --sheet SHEET")))?;
            let graph = GraphInput::accepted(&source, sheet)?;
            let (nodes, bytes) = (graph.graph.nodes.len(), graph.bytes.len());
            let line = format!("graph, {}, {}", count(nodes, "node"), count(bytes, "byte"));
            Ok((line, accepted("graph", vec![("nodes", Json::count(nodes)), ("bytes", Json::count(bytes))])))
        }
        About::Order => {
            let (line, more) = order_says(&OrderInput::of(&source)?, sheet);
            Ok((line, accepted("order", more)))
        }
        About::Track => {
            let (line, more) = track_says(&track(&source)?);
            Ok((line, accepted("track", more)))
        }
    }
}

/// What an accepted sheet is, and how large its graph.
fn sheet_says(sheet: &SheetInput) -> (String, Fields) {
    let size = sheet.size;
    let [arity, rules, tests] = [size.arity, size.rules, size.tests].map(usize::from);
    let mut line =
        format!("sheet, {}, {}, {}", count(arity, "argument"), count(rules, "rule"), count(tests, "test"));
    let mut json =
        vec![("arity", Json::count(arity)), ("rules", Json::count(rules)), ("tests", Json::count(tests))];
    let (graph, more) = graph_says(sheet, None);
    line += &graph;
    json.extend(more);
    (line, json)
}

/// How large a sheet's graph is, in a reading order if one is given.
fn graph_says(sheet: &SheetInput, order: Option<&OrderInput>) -> (String, Fields) {
    match graph_bytes(sheet, order) {
        Ok(graph) => {
            let nodes = usize::from(u16::from_be_bytes([graph[3], graph[4]]));
            let line = format!("; its graph has {}, {}", count(nodes, "node"), count(graph.len(), "byte"));
            (line, vec![("nodes", Json::count(nodes)), ("bytes", Json::count(graph.len()))])
        }
        Err(refusal) => {
            let json = vec![("graph_refusal", Json::number(refusal.number()))];
            (format!("; its graph is {refusal}"), json)
        }
    }
}

/// What an accepted order is: the places of a sheet in the order in which they are asked.
fn order_says(order: &OrderInput, sheet: Option<&SheetInput>) -> (String, Fields) {
    let Some(sheet) = sheet else { return ("order, all places once, each after its parent".into(), vec![]) };
    let tests = SheetTests::of(&sheet.sheet).tests;
    let place = |test: &Test| match test {
        Test::Place(place) => Some(*place),
        Test::Pair(..) => None,
    };
    let mut asked: Vec<u16> = tests.iter().filter_map(place).collect();
    asked.sort_by_key(|place| order.turn(*place));
    let asked: Vec<String> = asked.into_iter().map(places::words).collect();
    let (graph, more) = graph_says(sheet, Some(order));
    let words = if asked.is_empty() { "no place".into() } else { asked.join("; ") };
    let line = format!("order, {} asks {words}{graph}", sheet.source.name);
    (
        line,
        [("asks", Json::List(asked.into_iter().map(Json::Text).collect()))].into_iter().chain(more).collect(),
    )
}

/// What accepted pieces are.
fn pieces_say(source: &Source, sheet: Option<&SheetInput>) -> Result<(String, Fields), Stop> {
    let names = sheet.map_or_else(Names::default, |sheet| sheet.names.clone());
    let (pieces, _) = pieces(source, &names)?;
    if let Some(sheet) = sheet {
        for (at, piece) in pieces.iter().enumerate() {
            voltunnis::plain(&sheet.bytes, &piece.bytes).map_err(|refusal| match source.text() {
                Some(text) => refused::in_text(&source.name, text, refusal, piece.piece.at),
                None => refused::whole(&format!("{}, piece {}", source.name, at + 1), refusal, ""),
            })?;
        }
    }
    let mut arities: Vec<usize> = pieces.iter().map(|piece| piece.piece.terms.len()).collect();
    arities.sort_unstable();
    arities.dedup();
    let each = match arities[..] {
        [arity] => format!(" of {}", count(arity, "argument")),
        _ => String::new(),
    };
    Ok((count(pieces.len(), "piece") + &each, vec![("pieces", Json::count(pieces.len()))]))
}
