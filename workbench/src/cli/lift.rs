//! `vt lift`: a graph from before gauges in today's form.

use super::args::{Args, BYTES, JSON, OUTPUT};
use super::bytes::{graph_parts, write};
use super::check::SHEET;
use super::input::SheetInput;
use super::out::Out;
use super::refused;
use super::source::{Content, Source};
use super::stop::Stop;
use super::Command;
use crate::json::Json;
use crate::lift::{lift, NotLifted};
use crate::locate;
use crate::notation::Graph;

pub const COMMAND: Command = Command {
    name: "lift",
    usage: "GRAPH",
    summary: "put a gauge of 0 into each number case of a graph from before gauges",
    about: "A number case has 8 bytes, of which one is its gauge. In graphs stored before gauges were known it has 7;\n\
            such a graph need not be built again: with a gauge of 0 in each number case it is accepted, and moves\n\
            the gate as it did. The bytes must be such a graph of the sheet, --sheet. One that is accepted as it is,\n\
            its number cases read with gauges, is not lifted; if it is from before gauges, build it again.\n\
            Without -o the bytes are shown in hexadecimal: a head, then a line for each node.",
    options: &[SHEET, OUTPUT, BYTES, JSON],
    examples: &[("vt lift --sheet coins.sheet stored.bin -o coins.bin", "a stored graph in today's form")],
    run,
};

fn run(args: &Args, out: &Out) -> Result<(), Stop> {
    let [path] = &args.rest[..] else { return Err(args.wrong("expected one graph")) };
    let sheet = args.value(SHEET).ok_or_else(|| args.wrong("expected the graph's sheet, --sheet SHEET"))?;
    if path == "-" && sheet == "-" {
        return Err(args.wrong("standard input can be read once only"));
    }
    let sheet = SheetInput::load(sheet, args)?;
    let source = Source::load(path, args)?;
    let Content::Bytes(bytes) = &source.content else {
        let why = "in a text a range that names no gauge is of gauge 0 already; `vt bytes` writes it";
        return Err(args.wrong(&format!("{path}: expected the bytes of a graph: {why}")));
    };
    let lifted = lift(&sheet.bytes, bytes).map_err(|why| stop(&source.name, &sheet, why))?;
    let graph = Graph::read(&lifted).map_err(|_| Stop::internal("an accepted graph that cannot be read"))?;
    let json = vec![("kind", Json::text("graph")), ("nodes", Json::count(graph.nodes.len()))];
    write(args, out, json, &graph_parts(&graph))
}

/// Why the bytes are not lifted, for people.
fn stop(name: &str, sheet: &SheetInput, why: NotLifted) -> Stop {
    match why {
        NotLifted::HasGauges => {
            let message =
                "it is accepted as it is, its number cases read with gauges; if it is from before gauges, \
                           build it again";
            let json = Json::Object(vec![("file", Json::text(name)), ("message", Json::text(message))]);
            Stop::refused(format!("{name}: not lifted: {message}\n"), json)
        }
        NotLifted::Unread(unread) => refused::unread(&format!("{name}: not from before gauges"), &unread),
        NotLifted::Refused(lifted, refusal) => {
            let place = locate::in_graph(&sheet.bytes, &lifted, refusal);
            refused::in_bytes(&format!("{name}, lifted"), &lifted, refusal, place)
        }
    }
}
