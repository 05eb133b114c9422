//! Another maker's program in the protocol of docs/CONFORMANCE.md: the second implementation.
//!
//! `vt conform --program maker` finds no difference. `maker --wrong TRAP` is its wrong twin: see `wrong`.

mod gauges;
mod nevers;
mod orders;
mod series;
mod wrong;

use std::io::{stdin, BufRead};
use voltunnis_tests::bytes::{from_hex, to_hex};
use voltunnis_tests::reference::{
    build, build_ordered, check_graph, check_order, check_piece, check_sheet, order, plain, rewrite, tidy,
    walk, walk_all,
};
use voltunnis_tests::results::Built;

/// What a call gives: its fields as they stand in the reply, or the number of its refusal.
type Said = Result<String, u8>;

/// Makes a call; none if there is no such call. A lent buffer is the last argument.
fn call(name: &str, arguments: &mut [Vec<u8>]) -> Option<Said> {
    Some(match (name, arguments) {
        ("check_sheet", [sheet]) => {
            check_sheet(sheet).map(|size| format!("{} {} {}", size.arity, size.rules, size.tests))
        }
        ("check_piece", [piece]) => check_piece(piece).map(|size| size.arity.to_string()),
        ("plain", [sheet, piece]) => {
            plain(sheet, piece).map(|answer| format!("{} {}", answer.word.name(), answer.rule))
        }
        ("check_graph", [sheet, graph]) => check_graph(sheet, graph).map(|size| size.nodes.to_string()),
        ("check_order", [order]) => check_order(order).map(|()| String::new()),
        ("build", [sheet, buffer]) => build(sheet, buffer).map(size),
        ("build_ordered", [sheet, order, buffer]) => build_ordered(sheet, order, buffer).map(size),
        ("order", [positions, buffer]) => order(positions, buffer).map(|written| written.bytes.to_string()),
        ("tidy", [sheet, buffer]) => tidy(sheet, buffer).map(|written| written.bytes.to_string()),
        ("rewrite", [sheet, graph, buffer]) => {
            rewrite(sheet, graph, buffer).map(|written| written.bytes.to_string())
        }
        ("walk", [sheet, graph, piece]) => walk(sheet, graph, piece).map(|answer| answer.to_string()),
        ("walk_all", [sheet, graph, pieces, results]) => {
            walk_all(sheet, graph, pieces, results).map(|run| format!("{} {}", run.results, run.bytes))
        }
        _ => return None,
    })
}

/// The fields of a build.
fn size(built: Built) -> String {
    format!("{} {}", built.nodes, built.bytes)
}

/// The calls that are lent a buffer.
const WRITERS: [&str; 6] = ["order", "tidy", "build", "build_ordered", "rewrite", "walk_all"];

fn main() {
    let trap = std::env::args().skip_while(|word| word != "--wrong").nth(1);
    for line in stdin().lock().lines().map_while(Result::ok) {
        let mut words = line.split(' ');
        let name = words.next().unwrap_or_default();
        let mut arguments: Vec<Vec<u8>> = words.map(|word| from_hex(word.trim_matches('-'))).collect();
        let said = match &trap {
            Some(trap) => wrong::call(trap, name, &mut arguments),
            None => call(name, &mut arguments),
        };
        let reply = match said {
            None => "unknown".into(),
            Some(Ok(fields)) => format!("ok {fields}").trim_end().into(),
            Some(Err(refusal)) => format!("refused {refusal}"),
        };
        match arguments.last().filter(|_| WRITERS.contains(&name) && reply != "unknown") {
            Some(buffer) if buffer.is_empty() => println!("{reply} -"),
            Some(buffer) => println!("{reply} {}", to_hex(buffer)),
            None => println!("{reply}"),
        }
    }
}
