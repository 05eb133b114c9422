//! Sheets and graphs that the library accepts, from text or bytes.

use super::args::Args;
use super::draw::GRAPH;
use super::order::OrderInput;
use super::refused;
use super::source::{Content, Source};
use super::stop::Stop;
use crate::lift::lift;
use crate::locate::{self, Where};
use crate::notation::{parse_graph, parse_sheet, Graph, Names, Pattern, Sheet, SheetText, Span};
use voltunnis::{check_graph, check_sheet, graph, graph_ordered, Refusal, SheetSize};

/// An accepted sheet.
pub struct SheetInput {
    pub source: Source,
    pub sheet: Sheet,
    pub names: Names,
    pub bytes: Vec<u8>,
    pub size: SheetSize,
}

impl SheetInput {
    /// Reads a sheet that the library must accept.
    pub fn load(path: &str, args: &Args) -> Result<SheetInput, Stop> {
        SheetInput::of(Source::load(path, args)?)
    }

    pub fn of(source: Source) -> Result<SheetInput, Stop> {
        let (sheet, names, bytes) = match &source.content {
            Content::Text(text) => {
                let SheetText { sheet, names } =
                    parse_sheet(text).map_err(|fault| refused::fault(&source.name, text, &fault))?;
                let bytes = sheet.bytes();
                (Some(sheet), names, bytes)
            }
            Content::Bytes(bytes) => (Sheet::read(bytes).ok(), Names::default(), bytes.clone()),
        };
        let size = check_sheet(&bytes).map_err(|refusal| {
            let place = locate::in_sheet(&bytes, refusal);
            refused::in_source(&source, &bytes, refusal, place, |place| part(sheet.as_ref(), place))
        })?;
        let sheet = sheet.ok_or_else(|| Stop::internal("an accepted sheet that cannot be read"))?;
        Ok(SheetInput { source, sheet, names, bytes, size })
    }

    /// The rules as they are written, with their numbers; from bytes, as they are printed.
    pub fn rules(&self) -> Vec<String> {
        let rules = self.sheet.rules.iter().enumerate();
        let text = self.source.text();
        rules
            .map(|(at, rule)| match text.and_then(|text| text.get(rule.at.start..rule.at.end)) {
                Some(written) => one_line(written),
                None => format!("{}: {}", at + 1, rule.print(&self.names)),
            })
            .collect()
    }
}

/// The bytes of a sheet, asked about nothing, and the names that it declares.
pub fn sheet_bytes(source: &Source) -> Result<(Vec<u8>, Names), Stop> {
    match &source.content {
        Content::Text(text) => {
            let parsed = parse_sheet(text).map_err(|fault| refused::fault(&source.name, text, &fault))?;
            Ok((parsed.sheet.bytes(), parsed.names))
        }
        Content::Bytes(bytes) => Ok((bytes.clone(), Names::default())),
    }
}

/// A rule that is written over several lines, on one, without comments.
fn one_line(written: &str) -> String {
    let lines = written.lines().map(|line| line.split("--").next().unwrap_or("").trim());
    lines.filter(|line| !line.is_empty()).collect::<Vec<_>>().join(" ")
}

/// The part of a sheet's text that is meant.
fn part(sheet: Option<&Sheet>, place: Where) -> Span {
    fn nth<'a>(patterns: &'a [Pattern], left: &mut usize) -> Option<&'a Pattern> {
        for pattern in patterns {
            if *left == 0 {
                return Some(pattern);
            }
            *left -= 1;
            if let Some(found) = nth(pattern.arguments(), left) {
                return Some(found);
            }
        }
        None
    }
    let Some(sheet) = sheet else { return Span::default() };
    let Where::Record { mut index, .. } = place else { return sheet.head };
    sheet.rules.iter().find_map(|rule| nth(&rule.patterns, &mut index)).map_or(sheet.head, |found| found.at)
}

/// What helps with a graph whose number cases have no gauge.
const OLDER: &str =
    "help: it is from before gauges; `vt lift` puts a gauge of 0 into each of its number cases\n";

/// A graph with its bytes.
pub struct GraphInput {
    pub graph: Graph,
    pub bytes: Vec<u8>,
}

impl GraphInput {
    /// The graph of a sheet, built by the library, in a reading order if one is given.
    fn built(sheet: &SheetInput, order: Option<&OrderInput>) -> Result<GraphInput, Stop> {
        let bytes =
            graph_bytes(sheet, order).map_err(|refusal| refused::whole(&sheet.source.name, refusal, ""))?;
        let graph = Graph::read(&bytes).map_err(|_| Stop::internal("a built graph that cannot be read"))?;
        Ok(GraphInput { graph, bytes })
    }

    /// A graph as it is given, by these names, asked about nothing.
    pub fn unchecked(source: &Source, names: &Names) -> Result<GraphInput, Stop> {
        match &source.content {
            Content::Text(text) => {
                let graph =
                    parse_graph(text, names).map_err(|fault| refused::fault(&source.name, text, &fault))?;
                let bytes = graph.bytes();
                Ok(GraphInput { graph, bytes })
            }
            Content::Bytes(bytes) => match Graph::read(bytes) {
                Ok(graph) => Ok(GraphInput { graph, bytes: bytes.clone() }),
                Err(unread) => Err(refused::unread(&source.name, &unread)),
            },
        }
    }

    /// A graph that the library must accept for this sheet.
    pub fn accepted(source: &Source, sheet: &SheetInput) -> Result<GraphInput, Stop> {
        let read = GraphInput::unchecked(source, &sheet.names);
        let bytes = match (&source.content, &read) {
            (Content::Bytes(bytes), _) => bytes,
            (_, Ok(read)) => &read.bytes,
            _ => return read,
        };
        check_graph(&sheet.bytes, bytes).map_err(|refusal| {
            let place = locate::in_graph(&sheet.bytes, bytes, refusal);
            let graph = read.as_ref().ok().map(|read| &read.graph);
            let mut stop = refused::in_source(source, bytes, refusal, place, |place| match (graph, place) {
                (Some(graph), Where::Record { index, .. }) => {
                    graph.nodes.get(index).map_or(graph.head, |node| node.at)
                }
                (Some(graph), _) => graph.head,
                (None, _) => Span::default(),
            });
            if source.text().is_none() && lift(&sheet.bytes, bytes).is_ok() {
                stop.message += OLDER;
            }
            stop
        })?;
        read
    }

    /// The graph that a command walks or draws: the one that is given, or the sheet's own, in the reading
    /// order that is given.
    pub fn chosen(sheet: &SheetInput, args: &Args) -> Result<GraphInput, Stop> {
        match (args.value(GRAPH), OrderInput::given(args)?) {
            (Some(_), Some(_)) => Err(args.wrong("expected --graph or --order, not both")),
            (Some(path), None) => GraphInput::accepted(&Source::load(path, args)?, sheet),
            (None, order) => GraphInput::built(sheet, order.as_ref()),
        }
    }
}

/// The bytes of a sheet's graph, in a reading order if one is given.
pub fn graph_bytes(sheet: &SheetInput, order: Option<&OrderInput>) -> Result<Vec<u8>, Refusal> {
    match order {
        Some(order) => graph_ordered(&sheet.bytes, &order.bytes),
        None => graph(&sheet.bytes),
    }
}
