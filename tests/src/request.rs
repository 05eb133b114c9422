//! The vectors of the requests of document 02: a line has the request, a call and what is said, parted by `|`.

use crate::both::{build, check_piece, plain, tidy, walk_all};
use crate::bytes::{from_hex, to_hex};
use crate::reference::listing::listing;
use crate::reference::own_graph;
use crate::results::{Built, PieceSize, Refusal, Run, Word, Written};

/// What a call says, as the vectors do.
fn outcome(result: Result<String, Refusal>) -> String {
    result.map_or_else(|refusal| format!("refused {refusal}"), |said| format!("ok {said}"))
}

/// Makes the call of a line of one of these requests, of library and reference; both say what the line does. Gives the
/// call's name.
///
/// # Panics
/// If they say anything else.
pub fn met<'a>(line: &'a str, requests: &[&str]) -> &'a str {
    let Some((request, (call, said))) =
        line.split_once('|').and_then(|(request, rest)| Some((request, rest.split_once('|')?)))
    else {
        panic!("no vector: {line}")
    };
    assert!(requests.contains(&request), "another request: {line}");
    let words: Vec<&str> = call.split(' ').collect();
    let length = |len: &str| len.parse().expect("a length");
    let result = match words[..] {
        ["check_piece", piece] => check_piece(&from_hex(piece)).map(|PieceSize { arity }| arity.to_string()),
        ["plain", sheet, piece] => plain(&from_hex(sheet), &from_hex(piece))
            .map(|plain| format!("{} {}", plain.word.name(), plain.rule)),
        ["build", sheet, len] => {
            let (result, buffer) = build(&from_hex(sheet), length(len));
            let bytes = |bytes: u32| to_hex(&buffer[..bytes as usize]);
            result.map(|built: Built| format!("{} {} {}", built.nodes, built.bytes, bytes(built.bytes)))
        }
        ["tidy", sheet, len] => {
            let (result, buffer) = tidy(&from_hex(sheet), length(len));
            result.map(|Written { bytes }| format!("{bytes} {}", to_hex(&buffer[..bytes as usize])))
        }
        ["listing", sheet, pieces] => Ok(listed(&from_hex(sheet), &from_hex(pieces))),
        _ => panic!("no call: {call}"),
    };
    assert_eq!(outcome(result), said, "{call}");
    words[0]
}

/// The reference's listing; each of its lines about a piece is what the walk says of it.
fn listed(sheet: &[u8], pieces: &[u8]) -> String {
    let lines = listing(sheet, pieces);
    let graph = own_graph(sheet).expect("a graph");
    let count = lines.lines().count() - 1;
    let (run, results) = walk_all(sheet, &graph, pieces, 16 * count);
    assert_eq!(run, Ok(Run { results: count as u32, bytes: pieces.len() as u32 }));
    for ((line, result), number) in lines.lines().skip(1).zip(results.chunks(16)).zip(1..) {
        let word = Word::from_number(result[1]).expect("a word").name();
        let (rule, edges, wait) = (result[2], result[3], to_hex(&result[8..]));
        assert_eq!(format!("{number} {word} {rule} {edges} {wait}"), line);
    }
    lines.replace('\n', "|")
}
