//! Graphs from text.

use super::names::Names;
use super::parse_place::place;
use super::parse_sheet::{gauged_range, series_end};
use super::parser::Parser;
use super::print_graph::count;
use super::span::{Fault, Span};
use super::token::Token;
use super::tree::{Case, Graph, Kind, Node};

/// The graph that a text spells, by these names and its own.
///
/// ```
/// use voltunnis_workbench::notation::{parse_graph, Names};
///
/// let text = "graph 1, 1 rule, 3 nodes\n0: argument 1\n  #17..#19 -> 1\n  neither -> 2\n  unknown -> 1\n\
///             1: execute 1\n2: fail\n";
/// let graph = parse_graph(text, &Names::default()).unwrap();
/// assert_eq!(graph.bytes(), [
///     0x12, 1, 1, 0, 3, 0x43, 0, 0, 0, 1, 0, 2, 0, 1, 0x44, 0, 17, 0, 19, 0, 1, 0x42, 1, 0x40,
/// ]);
/// ```
pub fn parse_graph(text: &str, names: &Names) -> Result<Graph, Fault> {
    let mut parser = Parser::new(text, names)?;
    parser.skip();
    let start = parser.span();
    if !parser.accept_word("graph") {
        let fault = parser.expected("a graph's head");
        return Err(
            fault.help("begin with the numbers of arguments, rules and nodes: `graph 2, 2 rules, 6 nodes`")
        );
    }
    let arity = parser.byte("the number of arguments")?;
    parser.expect(",")?;
    let rules = parser.byte("the number of rules")?;
    either_word(&mut parser, "rule", "rules")?;
    parser.expect(",")?;
    let due = parser.number("the number of nodes")?;
    either_word(&mut parser, "node", "nodes")?;
    let head = start.to(parser.last());
    parser.line_end()?;
    let mut nodes = Vec::new();
    loop {
        parser.skip();
        if parser.at_end() {
            break;
        }
        nodes.push(node(&mut parser, nodes.len())?);
    }
    if nodes.len() != usize::from(due) {
        let many = count(usize::from(due), "node");
        return Err(Fault::new(head, format!("expected {many}, as the head says, found {}", nodes.len())));
    }
    Ok(Graph { arity, rules, head, nodes })
}

/// Takes a word in the singular or in the plural.
fn either_word(parser: &mut Parser, one: &str, many: &str) -> Result<(), Fault> {
    match parser.accept_word(many) || parser.accept_word(one) {
        true => Ok(()),
        false => Err(parser.expected(&format!("`{many}`"))),
    }
}

/// One node: its number, what it is, and its edges.
fn node(parser: &mut Parser, number: usize) -> Result<Node, Fault> {
    let start = parser.span();
    let found = parser.number("a node such as `3: suspend`")?;
    if usize::from(found) != number {
        let fault = Fault::new(start, format!("expected node {number}, found node {found}"));
        return Err(fault.help("nodes are numbered 0, 1, 2 and so on, as they stand"));
    }
    parser.expect(":")?;
    let kind = if parser.accept_word("fail") {
        Kind::Fail
    } else if parser.accept_word("suspend") {
        Kind::Suspend
    } else if parser.accept_word("execute") {
        Kind::Execute(parser.byte("a rule")?)
    } else {
        return asking(parser, start);
    };
    let at = start.to(parser.last());
    parser.line_end()?;
    Ok(Node { at, kind })
}

/// A node that asks: its question, then its edges, one a line.
fn asking(parser: &mut Parser, start: Span) -> Result<Node, Fault> {
    let asked = "`argument`, `place`, `fail`, `suspend` or `execute`";
    let first = place(parser, asked)?;
    let pair = if parser.accept("=") { Some(place(parser, asked)?) } else { None };
    let at = start.to(parser.last());
    parser.line_end()?;
    let kind = match pair {
        Some(q) => {
            let no = edge(parser, "no")?;
            Kind::Pair { p: first, q, no, other: edge(parser, "other")? }
        }
        None => {
            let cases = cases(parser, at)?;
            let neither = edge(parser, "neither")?;
            Kind::Switch { place: first, neither, unknown: edge(parser, "unknown")?, cases }
        }
    };
    Ok(Node { at, kind })
}

/// The edge with this word.
fn edge(parser: &mut Parser, word: &str) -> Result<u16, Fault> {
    parser.skip();
    match parser.accept_word(word) {
        true => target(parser),
        false => Err(parser.expected(&format!("the edge `{word}`"))),
    }
}

/// Where an edge leads: `-> 5`.
fn target(parser: &mut Parser) -> Result<u16, Fault> {
    parser.expect("->")?;
    let node = parser.number("a node's number")?;
    parser.line_end()?;
    Ok(node)
}

/// The cases of a switch, up to the edge `neither`.
fn cases(parser: &mut Parser, switch: Span) -> Result<Vec<(Case, u16)>, Fault> {
    let mut cases = Vec::new();
    loop {
        parser.skip();
        let case = match parser.peek() {
            Token::Number(_) => {
                let (low, high, gauge) = gauged_range(parser, "`->`")?;
                Case::Numbers(gauge.unwrap_or(0), low, high)
            }
            Token::Word(word) if word == "neither" => return Ok(cases),
            Token::Word(word) if word == "unknown" && parser.names.ids.get(word).is_none() => {
                return Err(parser.expected("the edge `neither`"));
            }
            _ => {
                let id = parser.id("a case or the edge `neither`")?;
                if parser.accept("/") {
                    Case::Compound(id, parser.byte("the number of a compound's arguments")?)
                } else if parser.accept("..") {
                    Case::Symbols(id, series_end(parser)?)
                } else {
                    Case::Symbols(id, id)
                }
            }
        };
        cases.push((case, target(parser)?));
        if cases.len() > usize::from(u16::MAX) {
            return Err(Fault::new(switch, "expected at most 65535 cases, as many as two bytes count"));
        }
    }
}
