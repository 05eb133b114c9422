//! `vt draw`: a sheet's graph as a picture.

use super::args::{Args, Opt, BYTES, JSON, OUTPUT};
use super::input::{GraphInput, SheetInput};
use super::order::ORDER;
use super::out::Out;
use super::picture;
use super::stop::Stop;
use super::Command;
use crate::dot::Picture;

/// `--graph`
pub const GRAPH: Opt = Opt {
    long: "graph",
    short: None,
    value: Some("FILE"),
    help: "another graph for the sheet, instead of the one that is built",
};

pub const COMMAND: Command = Command {
    name: "draw",
    usage: "SHEET",
    summary: "draw a sheet's graph: .svg, .png, .pdf or .dot",
    about:
        "Draws the graph with Graphviz: what each node asks, the cases on its edges, the leaves coloured by\n\
            what they say. Without -o the text for Graphviz is printed.",
    options: &[OUTPUT, GRAPH, ORDER, BYTES, JSON],
    examples: &[
        ("vt draw coins.sheet -o coins.svg", "a picture of the sheet's graph"),
        ("vt draw coins.sheet --order track.order -o track.svg", "the graph that asks in the track's order"),
        ("vt draw coins.sheet --graph theirs.bin -o theirs.svg", "a picture of another maker's graph"),
    ],
    run,
};

fn run(args: &Args, out: &Out) -> Result<(), Stop> {
    let [path] = &args.rest[..] else { return Err(args.wrong("expected one sheet")) };
    let sheet = SheetInput::load(path, args)?;
    let graph = GraphInput::chosen(&sheet, args)?;
    let rules = sheet.rules();
    let picture =
        Picture { graph: &graph.graph, names: &sheet.names, rules: &rules, title: String::new(), walk: None };
    match args.value(OUTPUT) {
        Some("-") | None => out.say(&picture.dot()),
        Some(path) => picture::write(&picture, path, args, out),
    }
}
