//! `vt bytes`: text to bytes.

use super::args::{Args, BYTES, JSON, OUTPUT};
use super::check::SHEET;
use super::input::{GraphInput, SheetInput};
use super::order::OrderInput;
use super::out::Out;
use super::pieces::pieces;
use super::source::{About, Source};
use super::stop::Stop;
use super::track::{track, POSITIONS};
use super::Command;
use crate::json::{Fields, Json};
use crate::notation::{Graph, Names, Sheet};

pub const COMMAND: Command = Command {
    name: "bytes",
    usage: "FILE",
    summary: "turn a sheet, pieces, a graph, an order or a track into bytes",
    about: "Writes the bytes of what a text spells, if the library accepts it. Pieces follow one another.\n\
            Without -o the bytes are shown in hexadecimal: a head, then a line for each rule, piece or node;\n\
            of an order lines of 20 places, of a track lines of 20 positions. A graph needs its sheet: --sheet.",
    options: &[OUTPUT, SHEET, BYTES, POSITIONS, JSON],
    examples: &[
        ("vt bytes coins.sheet", "show the sheet's bytes"),
        ("vt bytes coins.sheet -o sheet.bin", "write them to a file"),
        ("vt bytes track.order -o order.bin", "write the table of a reading order"),
        ("vt bytes drawing.track -o positions.bin", "write the list of track positions"),
    ],
    run,
};

fn run(args: &Args, out: &Out) -> Result<(), Stop> {
    let [path] = &args.rest[..] else { return Err(args.wrong("expected one file")) };
    let source = Source::load(path, args)?;
    let sheet = args.value(SHEET).map(|path| SheetInput::load(path, args)).transpose()?;
    let names = sheet.as_ref().map_or_else(Names::default, |sheet| sheet.names.clone());
    let (kind, parts) = match source.about() {
        About::Sheet => {
            let sheet = SheetInput::of(source)?;
            ("sheet", sheet_parts(&sheet.sheet))
        }
        About::Pieces => {
            let pieces = pieces(&source, &names)?.0;
            ("pieces", pieces.into_iter().map(|piece| piece.bytes).collect())
        }
        About::Graph => {
            let sheet = sheet
                .ok_or_else(|| args.wrong(&format!("{path} is a graph: add its sheet, --sheet SHEET")))?;
            ("graph", graph_parts(&GraphInput::accepted(&source, &sheet)?.graph))
        }
        About::Order => ("order", wide_parts(&OrderInput::of(&source)?.bytes)),
        About::Track => ("track", wide_parts(&track(&source)?.bytes())),
    };
    write(args, out, vec![("kind", Json::text(kind))], &parts)
}

/// A sheet's bytes: its head, then each rule.
fn sheet_parts(sheet: &Sheet) -> Vec<Vec<u8>> {
    let mut parts = vec![vec![0x10, sheet.arity, sheet.rules.len() as u8]];
    for rule in &sheet.rules {
        let mut bytes = Vec::new();
        rule.write(&mut bytes);
        parts.push(bytes);
    }
    parts
}

/// A graph's bytes: its head, then each node.
pub fn graph_parts(graph: &Graph) -> Vec<Vec<u8>> {
    let [high, low] = (graph.nodes.len() as u16).to_be_bytes();
    let mut parts = vec![vec![0x12, graph.arity, graph.rules, high, low]];
    for node in &graph.nodes {
        let mut bytes = Vec::new();
        node.kind.write(&mut bytes);
        parts.push(bytes);
    }
    parts
}

/// The bytes of wide numbers, 20 of them at a time.
fn wide_parts(bytes: &[u8]) -> Vec<Vec<u8>> {
    bytes.chunks(40).map(<[u8]>::to_vec).collect()
}

/// Writes bytes to the file that is named, or shows them, a part a line.
pub fn write(args: &Args, out: &Out, mut json: Fields, parts: &[Vec<u8>]) -> Result<(), Stop> {
    let bytes = parts.concat();
    if let Some(path) = args.value(OUTPUT) {
        out.file(path, &bytes)?;
        json.push(("file", Json::text(path)));
    }
    if args.has(JSON) {
        json.extend([("length", Json::count(bytes.len())), ("bytes", Json::bytes(&bytes))]);
        return out.json(&Json::Object(json));
    }
    if args.value(OUTPUT).is_some() {
        return Ok(());
    }
    let mut text = String::with_capacity(3 * bytes.len());
    for part in parts {
        let hex: Vec<String> = part.iter().map(|byte| format!("{byte:02x}")).collect();
        text += &hex.join(" ");
        text.push('\n');
    }
    out.say(&text)
}
