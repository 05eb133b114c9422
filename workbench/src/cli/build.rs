//! `vt build`: the graph of a sheet.

use super::args::{Args, BYTES, JSON, OUTPUT};
use super::bytes::{graph_parts, write};
use super::input::{GraphInput, SheetInput};
use super::order::ORDER;
use super::out::Out;
use super::stop::Stop;
use super::Command;
use crate::json::Json;

pub const COMMAND: Command = Command {
    name: "build",
    usage: "SHEET",
    summary: "build a sheet's decision graph",
    about:
        "Writes the bytes of the graph that the library builds. Without -o they are shown in hexadecimal:\n\
            a head, then a line for each node. `vt text` shows a graph in words, `vt draw` as a picture.\n\
            With --order places are asked in that order; words and rules of the answers stay the same.",
    options: &[OUTPUT, ORDER, BYTES, JSON],
    examples: &[
        ("vt build coins.sheet -o coins.bin", "write the graph to a file"),
        ("vt build coins.sheet --order track.order -o coins.bin", "ask the readings in the track's order"),
    ],
    run,
};

fn run(args: &Args, out: &Out) -> Result<(), Stop> {
    let [path] = &args.rest[..] else { return Err(args.wrong("expected one sheet")) };
    let graph = GraphInput::chosen(&SheetInput::load(path, args)?, args)?;
    let json = vec![("kind", Json::text("graph")), ("nodes", Json::count(graph.graph.nodes.len()))];
    write(args, out, json, &graph_parts(&graph.graph))
}
