//! `vt text`: bytes to text.

use super::args::{Args, BYTES, JSON, OUTPUT};
use super::check::SHEET;
use super::input::{GraphInput, SheetInput};
use super::order::OrderInput;
use super::out::Out;
use super::pieces::pieces;
use super::source::{About, Source};
use super::stop::Stop;
use super::track::{track, POSITIONS};
use super::Command;
use crate::json::Json;
use crate::notation::{Names, Used};

pub const COMMAND: Command = Command {
    name: "text",
    usage: "FILE",
    summary: "turn bytes into text: a sheet, pieces, a graph, an order or a track in words",
    about: "Prints a sheet's rules, pieces one a line, a graph's nodes, cases and edges in words, or the lines of\n\
            a reading order or of a track drawing.\n\
            With --sheet its names stand for ids, and the leaves of a graph show their rules; the graph is\n\
            then checked with it.",
    options: &[OUTPUT, SHEET, BYTES, POSITIONS, JSON],
    examples: &[
        ("vt text sheet.bin", "a sheet as text"),
        ("vt build coins.sheet -o - | vt text --bytes --sheet coins.sheet -", "the nodes of a sheet's graph"),
        ("vt text --positions positions.bin", "where each place stands on a track"),
    ],
    run,
};

fn run(args: &Args, out: &Out) -> Result<(), Stop> {
    let [path] = &args.rest[..] else { return Err(args.wrong("expected one file")) };
    if path == "-" && args.value(SHEET) == Some("-") {
        return Err(args.wrong("standard input can be read once only"));
    }
    let sheet = args.value(SHEET).map(|path| SheetInput::load(path, args)).transpose()?;
    let source = Source::load(path, args)?;
    let names = sheet.as_ref().map_or_else(Names::default, |sheet| sheet.names.clone());
    let (kind, text) = match source.about() {
        About::Sheet => {
            let mut read = SheetInput::of(source)?;
            read.names.extend(&names);
            ("sheet", read.sheet.print(&read.names))
        }
        About::Pieces => {
            let (pieces, names) = pieces(&source, &names)?;
            let mut used = Used::default();
            pieces.iter().for_each(|piece| piece.piece.note(&mut used));
            let lines = pieces.iter().map(|piece| piece.piece.print(&names) + "\n");
            ("pieces", names.declarations(used) + &lines.collect::<String>())
        }
        About::Graph => ("graph", graph_text(&source, sheet.as_ref())?),
        About::Order => ("order", OrderInput::of(&source)?.order.print()),
        About::Track => ("track", track(&source)?.print()),
    };
    match (args.value(OUTPUT), args.has(JSON)) {
        (Some(path), false) => out.file(path, text.as_bytes()),
        (_, true) => out.json(&Json::Object(vec![("kind", Json::text(kind)), ("text", Json::text(text))])),
        (None, false) => out.say(&text),
    }
}

/// A graph as text, checked if its sheet is given.
fn graph_text(source: &Source, sheet: Option<&SheetInput>) -> Result<String, Stop> {
    let Some(sheet) = sheet else {
        let none = Names::default();
        return Ok(GraphInput::unchecked(source, &none)?.graph.print(&none, |_| None));
    };
    let rules = sheet.rules();
    let graph = GraphInput::accepted(source, sheet)?.graph;
    Ok(graph.print(&sheet.names, |rule| rules.get(usize::from(rule).wrapping_sub(1)).cloned()))
}
