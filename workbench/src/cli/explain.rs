//! `vt explain`: the walk of a piece, step by step.

use super::answers::{listed, word, Bench};
use super::args::{Args, BYTES, JSON, OUTPUT};
use super::draw::GRAPH;
use super::gauges::Gauges;
use super::nevers::Nevers;
use super::order::ORDER;
use super::out::Out;
use super::picture;
use super::pieces::{piece, PieceInput};
use super::spans::Spans;
use super::stop::Stop;
use super::table::Table;
use super::Command;
use crate::dot::Picture;
use crate::json::Json;
use crate::notation::{count, places, Kind, Names};
use crate::retrace::{retrace, Made, Step, Way};
use crate::sheet_tests::Test;
use crate::truth::{find, Found};
use voltunnis::{Answer, Word};

pub const COMMAND: Command = Command {
    name: "explain",
    usage: "SHEET PIECE",
    summary: "retrace a piece's walk step by step, as a table or a picture",
    about: "Shows for each node what it asks, what the piece has there, the edge taken and the rules left; then\n\
            the tests of the rule that is left, and what the piece waits for; of a span such as `231..239?` also\n\
            why this case was taken and whose range it lies partly inside, which tests a reading that never comes,\n\
            `!`, contradicts, and which a number on another gauge. The way is read from the graph's bytes and must\n\
            come to the library's answer. With -o the picture has the way marked.",
    options: &[OUTPUT, GRAPH, ORDER, BYTES, JSON],
    examples: &[
        ("vt explain coins.sheet '(silver, ?, 25)'", "why this piece waits"),
        ("vt explain coins.sheet '(silver, ?, 25)' -o walk.svg", "the same as a picture"),
    ],
    run,
};

fn run(args: &Args, out: &Out) -> Result<(), Stop> {
    let [sheet, text] = &args.rest[..] else { return Err(args.wrong("expected a sheet and one piece")) };
    let bench = Bench::load(sheet, args)?;
    let piece = piece("piece", text, &bench.sheet.names)?;
    let shown = piece.piece.print(&bench.sheet.names);
    let way = retrace_checked(&bench, &piece, &shown)?;
    let explained =
        Explained { bench: &bench, piece: &piece, shown: &shown, way: &way.0, answer: way.1, out };
    match (args.value(OUTPUT), args.has(JSON)) {
        (Some("-"), _) => out.say(&explained.picture().dot()),
        (Some(path), _) => picture::write(&explained.picture(), path, args, out),
        (None, true) => out.json(&explained.json()),
        (None, false) => out.say(&explained.text()),
    }
}

/// The way of a piece, which must come to the library's answer or refusal.
fn retrace_checked(bench: &Bench, piece: &PieceInput, shown: &str) -> Result<(Way, Answer), Stop> {
    let said = bench.answer(piece, shown);
    let number = voltunnis::walk(&bench.sheet.bytes, &bench.graph.bytes, &piece.bytes).err().map(u8::from);
    if number.is_some_and(|number| number < 26) {
        return Err(said.err().unwrap_or_else(|| Stop::internal("two calls of the library differ")));
    }
    let way = retrace(&bench.tests, &bench.graph.graph, &piece.piece);
    match (said, &way.answer) {
        (Ok(said), Ok(found)) if said == *found => Ok((way, said)),
        (Err(stop), Err(found)) if number == Some(*found) => Err(stop),
        (said, found) => Err(Stop::internal(format!(
            "the way that was retraced ends otherwise than the library says\n  piece    {shown}\n  \
             library  {}\n  here     {}",
            said.map_or_else(|stop| stop.message.trim().to_string(), |answer| answer.to_string()),
            found.map_or_else(|number| format!("refused {number}"), |answer| answer.to_string()),
        ))),
    }
}

/// What there is to say about a walk.
struct Explained<'a> {
    bench: &'a Bench,
    piece: &'a PieceInput,
    shown: &'a str,
    way: &'a Way,
    answer: Answer,
    out: &'a Out,
}

/// Numbers of rules, rule i being bit i - 1.
fn rules(left: u64) -> Vec<u64> {
    (1..=64).filter(|rule| left >> (rule - 1) & 1 == 1).collect()
}

impl Explained<'_> {
    fn names(&self) -> &Names {
        &self.bench.sheet.names
    }

    /// What the piece has at a place.
    fn found(&self, place: u16) -> String {
        match find(&self.piece.piece, place) {
            Found::Term(term) => term.print(self.names()),
            Found::BelowUnknown => "?".into(),
            Found::Lacking => "nothing".into(),
        }
    }

    /// What a step finds.
    fn finds(&self, step: &Step) -> String {
        match step.asks {
            Test::Place(place) => self.found(place),
            Test::Pair(p, q) => format!("{} and {}", self.found(p), self.found(q)),
        }
    }

    /// The edge that a step takes.
    fn takes(&self, step: &Step) -> String {
        let edges = self.bench.graph.graph.nodes[usize::from(step.node)].kind.edges(self.names());
        edges.into_iter().nth(step.edge).map(|(words, _)| words).unwrap_or_default()
    }

    /// The walk in lines.
    fn text(&self) -> String {
        let mut table = Table::new(&["node", "asks", "finds", "takes", "to", "rules left"], &[0, 4]);
        for step in &self.way.steps {
            table.row(vec![
                step.node.to_string(),
                step.asks.words(),
                self.finds(step),
                self.takes(step),
                step.to.to_string(),
                rules(step.left).iter().map(u64::to_string).collect::<Vec<_>>().join(" "),
            ]);
        }
        table.row(vec![self.way.node.to_string(), self.end().words()]);
        let mut text =
            format!("{}\n\n{}\n", self.out.bold(self.shown), table.print(|head| self.out.dim(head)));
        let spans = self.spans();
        let said = spans.chosen() + &self.nevers().met(self.way) + &self.gauges().met(self.way);
        if !said.is_empty() {
            text += &format!("{said}\n");
        }
        text +=
            &format!("{} {}\n", self.out.answer(self.answer.walk.word, &word(&self.answer)), self.because());
        text += &self.made();
        if let Some(waits) = self.bench.waits(&self.answer) {
            text += &format!("{waits}\n");
        }
        if self.answer.walk.word == Word::Suspend {
            text += &spans.waited();
        }
        text
    }

    fn spans(&self) -> Spans<'_> {
        Spans { bench: self.bench, piece: &self.piece.piece, way: self.way }
    }

    fn nevers(&self) -> Nevers<'_> {
        Nevers { piece: &self.piece.piece }
    }

    fn gauges(&self) -> Gauges<'_> {
        Gauges { bench: self.bench, piece: &self.piece.piece }
    }

    /// The node at which the walk ended.
    fn end(&self) -> &Kind {
        &self.bench.graph.graph.nodes[usize::from(self.way.node)].kind
    }

    /// The rules that are left at the end of the walk, in words. Another maker's graph may go to a rule
    /// while others are left.
    fn left(&self) -> String {
        let all = || (1..=u64::from(self.bench.sheet.size.rules)).collect();
        let left: Vec<u64> = self.way.steps.last().map_or_else(all, |step| rules(step.left));
        match (self.end(), &left[..]) {
            (Kind::Execute(rule), left) if *left != [u64::from(*rule)] => {
                format!("the graph goes to rule {rule}")
            }
            (_, []) => "no rule is left".into(),
            (_, [one]) => format!("rule {one} is left"),
            (_, more) => {
                let more: Vec<String> = more.iter().map(u64::to_string).collect();
                format!("rules {} are left", listed(&more))
            }
        }
    }

    /// Why this is the answer.
    fn because(&self) -> String {
        let after = format!("after {}", count(usize::from(self.answer.walk.edges), "edge"));
        let left = self.left();
        match self.answer.walk.word {
            Word::Commit => format!("{after}: {left}, and all its tests hold"),
            Word::Execute => format!("{after}: {left}, and not all its tests are known yet"),
            Word::Suspend => format!("{after}: {left}"),
            Word::Fail if self.way.made.is_empty() => format!("{after}: {left}"),
            Word::Fail => format!("{after}: {left}, and a test of it is contradicted"),
        }
    }

    /// The tests of the rule at whose node the walk ended.
    fn made(&self) -> String {
        let Kind::Execute(rule) = self.end() else { return String::new() };
        let written = self.bench.rules.get(usize::from(*rule).wrapping_sub(1));
        let mut text = written.map(|rule| format!("  rule {rule}\n")).unwrap_or_default();
        let mut table = Table::new(&[], &[]);
        for made in &self.way.made {
            let never = self.nevers().beside(made.test);
            let gauge = self.gauges().beside(made.test, made.want);
            let truth = format!("{}{never}{gauge}", made.truth.words());
            table.row(vec![self.made_words(made), self.made_found(made), truth]);
        }
        for line in table.print(|head| head.into()).lines() {
            text += &format!("    {line}\n");
        }
        text
    }

    /// A test that was made, in words.
    fn made_words(&self, made: &Made) -> String {
        match (made.test, made.want) {
            (Test::Place(place), Some(want)) => {
                format!("{} {}", places::words(place), want.words(self.names()))
            }
            (test, _) => test.words(),
        }
    }

    fn made_found(&self, made: &Made) -> String {
        match made.test {
            Test::Place(place) => self.found(place),
            Test::Pair(p, q) => format!("{} and {}", self.found(p), self.found(q)),
        }
    }

    /// The picture with the way marked.
    fn picture(&self) -> Picture<'_> {
        Picture {
            graph: &self.bench.graph.graph,
            names: self.names(),
            rules: &self.bench.rules,
            title: format!("{}: {}", self.shown, word(&self.answer)),
            walk: Some((&self.way.steps, self.way.node)),
        }
    }

    fn json(&self) -> Json {
        let step = |step: &Step| {
            Json::Object(vec![
                ("node", Json::number(step.node)),
                ("asks", Json::text(step.asks.words())),
                ("finds", Json::text(self.finds(step))),
                ("contain", Json::count(step.contain)),
                ("takes", Json::text(self.takes(step))),
                ("to", Json::number(step.to)),
                ("left", Json::List(rules(step.left).into_iter().map(Json::Number).collect())),
                ("partly", Json::List(rules(step.partly).into_iter().map(Json::Number).collect())),
                ("never", self.nevers().json(step.asks)),
            ])
        };
        let made = |made: &Made| {
            Json::Object(vec![
                ("test", Json::text(self.made_words(made))),
                ("finds", Json::text(self.made_found(made))),
                ("truth", Json::text(made.truth.words())),
                ("never", self.nevers().json(made.test)),
            ])
        };
        let mut fields = self.bench.json(self.shown, &self.answer);
        fields.push(("steps", Json::List(self.way.steps.iter().map(step).collect())));
        fields.push(("end", Json::number(self.way.node)));
        fields.push(("tests", Json::List(self.way.made.iter().map(made).collect())));
        Json::Object(fields)
    }
}
