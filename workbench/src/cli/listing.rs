//! `vt listing`: document 01's listing, from text or bytes.

use super::args::{Args, BYTES, JSON};
use super::input::{sheet_bytes, SheetInput};
use super::order::{OrderInput, ORDER};
use super::out::Out;
use super::pieces::piece_bytes;
use super::source::Source;
use super::stop::{Stop, REFUSED};
use super::Command;
use crate::json::Json;
use std::fmt::Write;
use voltunnis::{Answer, Refusal, SheetSize};

/// Each input is cut after so many bytes, and the graph's buffer has as many.
const INPUT: usize = 65_536;

pub const COMMAND: Command = Command {
    name: "listing",
    usage: "SHEET [PIECES]",
    summary: "document 01's listing of a sheet and its pieces",
    about: "Prints the lines of document 01's listing: for the sheet its arity, rules, tests and nodes; for each\n\
            piece its number, answer, rule, edges and wait list. A refusal ends it. Pieces come from standard\n\
            input unless a file is named. With --order the graph asks in that order.",
    options: &[ORDER, BYTES, JSON],
    examples: &[
        ("vt listing coins.sheet tray.pieces", "the listing of the pieces of a file"),
        ("vt listing coins.sheet tray.pieces --order track.order", "the edges and wait lists of the track's order"),
    ],
    run,
};

/// What a listing says.
#[derive(Default)]
struct Listing {
    /// The sheet's size and its graph's nodes.
    sheet: Option<(SheetSize, u16)>,
    answers: Vec<Answer>,
    refusal: Option<Refusal>,
}

fn run(args: &Args, out: &Out) -> Result<(), Stop> {
    let (sheet, pieces) = match &args.rest[..] {
        [sheet] => (sheet, "-"),
        [sheet, pieces] => (sheet, pieces.as_str()),
        _ => return Err(args.wrong("expected a sheet, and pieces or nothing")),
    };
    if sheet == "-" && pieces == "-" {
        return Err(args.wrong("standard input can be read once only"));
    }
    let source = Source::load(sheet, args)?;
    let (sheet, names) = sheet_bytes(&source)?;
    let pieces = piece_bytes(&Source::load(pieces, args)?, &names)?;
    let cut = |bytes: &[u8]| bytes.len().min(INPUT);
    let order = OrderInput::given(args)?.map(|order| order.bytes);
    let listing = Listing::of(&sheet[..cut(&sheet)], order.as_deref(), &pieces[..cut(&pieces)]);
    match args.has(JSON) {
        true => out.json(&listing.json())?,
        false => out.say(&listing.lines())?,
    }
    match (listing.refusal, listing.sheet) {
        (None, _) => Ok(()),
        (Some(refusal), None) => {
            // Where, if the question is one of a sheet's own.
            let shown = SheetInput::of(source).err().map(|stop| stop.message);
            let message = shown.unwrap_or_else(|| format!("{refusal}\n"));
            Err(Stop { status: REFUSED, message, json: None })
        }
        (Some(refusal), Some(_)) => {
            let message = format!("piece {}: {refusal}\n", listing.answers.len() + 1);
            Err(Stop { status: REFUSED, message, json: None })
        }
    }
}

impl Listing {
    fn of(sheet: &[u8], order: Option<&[u8]>, pieces: &[u8]) -> Listing {
        let mut listing = Listing::default();
        listing.refusal = listing.list(sheet, order, pieces).err();
        listing
    }

    /// Lists a sheet, then its pieces one after another, until a question gets a no.
    fn list(&mut self, sheet: &[u8], order: Option<&[u8]>, pieces: &[u8]) -> Result<(), Refusal> {
        let mut graph = vec![0; INPUT];
        let built = match order {
            Some(order) => voltunnis::build_ordered(sheet, order, &mut graph)?,
            None => voltunnis::build(sheet, &mut graph)?,
        };
        graph.truncate(built.bytes as usize);
        self.sheet = Some((voltunnis::check_sheet(sheet)?, built.nodes));
        for answer in voltunnis::answers(sheet, &graph, pieces)? {
            self.answers.push(answer?);
        }
        Ok(())
    }

    /// The lines of document 01.
    fn lines(&self) -> String {
        let mut lines = String::new();
        if let Some((SheetSize { arity, rules, tests }, nodes)) = self.sheet {
            writeln!(lines, "sheet {arity} {rules} {tests} {nodes}").expect("a string takes all");
        }
        for (at, answer) in self.answers.iter().enumerate() {
            writeln!(lines, "{} {answer}", at + 1).expect("a string takes all");
        }
        if let Some(refusal) = self.refusal {
            writeln!(lines, "refused {}", refusal.number()).expect("a string takes all");
        }
        lines
    }

    fn json(&self) -> Json {
        let sheet = self.sheet.map_or(Json::Null, |(size, nodes)| {
            Json::Object(vec![
                ("arity", Json::number(size.arity)),
                ("rules", Json::number(size.rules)),
                ("tests", Json::number(size.tests)),
                ("nodes", Json::number(nodes)),
            ])
        });
        let answer = |answer: &Answer| {
            Json::Object(vec![
                ("answer", Json::text(answer.walk.word.name())),
                ("rule", Json::number(answer.walk.rule)),
                ("edges", Json::number(answer.walk.edges)),
                ("wait", Json::text(format!("{:016x}", answer.wait))),
            ])
        };
        let refusal = self.refusal.map_or(Json::Null, |refusal| Json::number(refusal.number()));
        let pieces = Json::List(self.answers.iter().map(answer).collect());
        Json::Object(vec![("sheet", sheet), ("pieces", pieces), ("refusal", refusal)])
    }
}
