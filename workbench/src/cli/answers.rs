//! Answers of the library for pieces, in words.

use super::args::{Args, Opt};
use super::input::{GraphInput, SheetInput};
use super::pieces::{piece, pieces, PieceInput};
use super::refused;
use super::source::Source;
use super::stop::Stop;
use crate::json::{Fields, Json};
use crate::notation::{count, Names};
use crate::sheet_tests::SheetTests;
use voltunnis::{Answer, Word};

/// `--pieces`
pub const PIECES: Opt =
    Opt { long: "pieces", short: None, value: Some("FILE"), help: "pieces from a file; - is standard input" };

/// A sheet and a graph for it, with what is needed to put answers in words.
pub struct Bench {
    pub sheet: SheetInput,
    pub graph: GraphInput,
    pub tests: SheetTests,
    /// The rules as they are written.
    pub rules: Vec<String>,
}

impl Bench {
    /// The sheet of this name, and its own graph, in the order that is given, or the graph that is given.
    pub fn load(path: &str, args: &Args) -> Result<Bench, Stop> {
        let sheet = SheetInput::load(path, args)?;
        let graph = GraphInput::chosen(&sheet, args)?;
        let tests = SheetTests::of(&sheet.sheet);
        let rules = sheet.rules();
        Ok(Bench { sheet, graph, tests, rules })
    }

    /// The pieces of a command line: those that are written there, then those of a file.
    pub fn pieces(
        &self,
        written: &[String],
        args: &Args,
    ) -> Result<(Vec<Result<PieceInput, Stop>>, Names), Stop> {
        let mut all: Vec<_> = written.iter().map(|text| piece("piece", text, &self.sheet.names)).collect();
        let mut names = self.sheet.names.clone();
        if let Some(path) = args.value(PIECES) {
            let (more, known) = pieces(&Source::load(path, args)?, &names)?;
            all.extend(more.into_iter().map(Ok));
            names = known;
        }
        Ok((all, names))
    }

    /// The library's answer for a piece.
    pub fn answer(&self, input: &PieceInput, shown: &str) -> Result<Answer, Stop> {
        voltunnis::answer(&self.sheet.bytes, &self.graph.bytes, &input.bytes).map_err(|refusal| {
            let (has, wants) = (input.piece.terms.len(), usize::from(self.sheet.size.arity));
            let why = match has == wants {
                true => String::new(),
                false => format!("the piece has {}, the sheet {wants}", count(has, "argument")),
            };
            refused::whole(shown, refusal, &why)
        })
    }

    /// The rule of an answer as it is written.
    pub fn rule(&self, answer: &Answer) -> Option<&str> {
        self.rules.get(usize::from(answer.walk.rule).checked_sub(1)?).map(String::as_str)
    }

    /// The wait list in words: "waits for argument 1; for argument 1 = argument 2".
    pub fn waits(&self, answer: &Answer) -> Option<String> {
        let waits = self.tests.waits(answer.wait);
        (!waits.is_empty()).then(|| format!("waits for {}", waits.join("; for ")))
    }

    /// The answer for programs.
    pub fn json(&self, shown: &str, answer: &Answer) -> Fields {
        vec![
            ("piece", Json::text(shown)),
            ("answer", Json::text(answer.walk.word.name())),
            ("rule", Json::number(answer.walk.rule)),
            ("written", self.rule(answer).map_or(Json::Null, Json::text)),
            ("edges", Json::number(answer.walk.edges)),
            ("wait", Json::text(format!("{:016x}", answer.wait))),
            ("waits", Json::List(self.tests.waits(answer.wait).into_iter().map(Json::Text).collect())),
        ]
    }
}

/// An answer's word, with its rule if it has one.
pub fn word(answer: &Answer) -> String {
    match answer.walk.word {
        Word::Commit | Word::Execute => format!("{} {}", answer.walk.word, answer.walk.rule),
        Word::Suspend | Word::Fail => answer.walk.word.to_string(),
    }
}

/// Items in words: "a", "a and b", "a, b and c".
pub fn listed(items: &[String]) -> String {
    match items {
        [] => "none".into(),
        [one] => one.clone(),
        [first @ .., last] => format!("{} and {last}", first.join(", ")),
    }
}
