//! What the library replies to a call, as the line that docs/CONFORMANCE.md describes.

use std::fmt;
use voltunnis::{Answer, Built, Refusal, Word};
use voltunnis_generate::calls::{word, Call, Name, Role};

/// The library's reply to a call.
pub struct Reply {
    /// The fields as they stand in the line, or the refusal.
    pub result: Result<String, Refusal>,
    /// The word of an answer.
    pub word: Option<Word>,
    /// The buffer afterwards, if the call is lent one.
    pub buffer: Option<Vec<u8>>,
}

/// The reply as a line.
impl fmt::Display for Reply {
    fn fmt(&self, to: &mut fmt::Formatter) -> fmt::Result {
        match &self.result {
            Ok(fields) if fields.is_empty() => to.write_str("ok")?,
            Ok(fields) => write!(to, "ok {fields}")?,
            Err(refusal) => write!(to, "refused {}", refusal.number())?,
        }
        match &self.buffer {
            Some(bytes) => write!(to, " {}", word(bytes)),
            None => Ok(()),
        }
    }
}

/// The names of the fields of a call's reply, in order.
pub fn fields(name: Name) -> &'static [&'static str] {
    match name {
        Name::CheckSheet => &["arity", "rules", "tests"],
        Name::CheckPiece => &["arity"],
        Name::CheckOrder => &[],
        Name::Plain => &["answer", "rule"],
        Name::CheckGraph => &["nodes"],
        Name::Build | Name::BuildOrdered => &["nodes", "bytes"],
        Name::Tidy | Name::Order | Name::Rewrite => &["bytes"],
        Name::Walk => &["answer", "rule", "edges", "wait list"],
        Name::WalkAll => &["results", "bytes"],
    }
}

/// Makes a call of the library.
pub fn reply(call: &Call) -> Reply {
    let of = |role| call.argument(role).unwrap_or_default();
    let (sheet, piece, graph) = (of(Role::Sheet), of(Role::Piece), of(Role::Graph));
    let order = of(Role::Order);
    let mut buffer = call.argument(Role::Buffer).map(<[u8]>::to_vec);
    let lent = buffer.as_deref_mut().unwrap_or_default();
    let mut answer = None;
    let mut said = |word: Word| {
        answer = Some(word);
        word
    };
    let result = match call.name() {
        Name::CheckSheet => {
            voltunnis::check_sheet(sheet).map(|size| format!("{} {} {}", size.arity, size.rules, size.tests))
        }
        Name::CheckPiece => voltunnis::check_piece(piece).map(|size| size.arity.to_string()),
        Name::CheckOrder => voltunnis::check_order(order).map(|()| String::new()),
        Name::Plain => {
            voltunnis::plain(sheet, piece).map(|plain| format!("{} {}", said(plain.word), plain.rule))
        }
        Name::CheckGraph => voltunnis::check_graph(sheet, graph).map(|size| size.nodes.to_string()),
        Name::Tidy => voltunnis::tidy(sheet, lent).map(|written| written.bytes.to_string()),
        Name::Order => voltunnis::order(of(Role::Positions), lent).map(|written| written.bytes.to_string()),
        Name::Build => voltunnis::build(sheet, lent).map(size),
        Name::BuildOrdered => voltunnis::build_ordered(sheet, order, lent).map(size),
        Name::Rewrite => voltunnis::rewrite(sheet, graph, lent).map(|written| written.bytes.to_string()),
        Name::WalkAll => voltunnis::walk_all(sheet, graph, of(Role::Pieces), lent)
            .map(|run| format!("{} {}", run.results, run.bytes)),
        Name::Walk => voltunnis::answer(sheet, graph, piece).map(|answer: Answer| {
            said(answer.walk.word);
            answer.to_string()
        }),
    };
    Reply { result, word: answer, buffer }
}

/// The fields of a build.
fn size(built: Built) -> String {
    format!("{} {}", built.nodes, built.bytes)
}

/// The bytes of the graph that the library builds for a sheet, in a reading order if one is given, if it has
/// one.
pub fn graph_in(sheet: &[u8], order: Option<&[u8]>) -> Option<Vec<u8>> {
    order.map_or_else(|| voltunnis::graph(sheet), |order| voltunnis::graph_ordered(sheet, order)).ok()
}
