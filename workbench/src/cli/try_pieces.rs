//! `vt try`: the answer for each piece.

use super::answers::{word, Bench, PIECES};
use super::args::{Args, BYTES, JSON};
use super::draw::GRAPH;
use super::order::ORDER;
use super::out::Out;
use super::stop::Stop;
use super::Command;
use crate::json::Json;
use crate::notation::count;
use voltunnis::Answer;

pub const COMMAND: Command = Command {
    name: "try",
    usage: "SHEET PIECE..",
    summary: "walk pieces over a sheet's graph and say the answers",
    about:
        "A piece is written as `(silver, 231, ?)`, in single quotes for the shell; `?` is a reading not taken yet,\n\
            `231..239?` a number known to lie between these two, `!` a reading that will never come, as of a sensor\n\
            that the machine lacks.\n\
            Said are the answer, the rule as it was written, the edges walked, and what the piece waits for.",
    options: &[PIECES, GRAPH, ORDER, BYTES, JSON],
    examples: &[
        ("vt try coins.sheet '(silver, 231, ?)'", "the answer for a piece"),
        ("vt try coins.sheet --pieces tray.pieces", "the answers for all pieces of a file"),
    ],
    run,
};

fn run(args: &Args, out: &Out) -> Result<(), Stop> {
    let Some((sheet, written)) = args.rest.split_first() else {
        return Err(args.wrong("expected a sheet and a piece"));
    };
    if written.is_empty() && args.value(PIECES).is_none() {
        return Err(args.wrong("expected a piece, as '(?, 180)', or --pieces FILE"));
    }
    let bench = Bench::load(sheet, args)?;
    let (pieces, names) = bench.pieces(written, args)?;
    let (mut status, mut said) = (0, Vec::new());
    for piece in pieces {
        let answered = piece.and_then(|piece| {
            let shown = piece.piece.print(&names);
            bench.answer(&piece, &shown).map(|answer| (shown, answer))
        });
        match answered {
            Ok((shown, answer)) => match args.has(JSON) {
                true => said.push(Json::Object(bench.json(&shown, &answer))),
                false => out.say(&lines(&bench, out, &shown, &answer))?,
            },
            Err(stop) => {
                status = status.max(stop.status);
                match (args.has(JSON), stop.json) {
                    (true, Some(json)) => said.push(json),
                    _ => out.complain(&stop.message),
                }
            }
        }
    }
    if args.has(JSON) {
        out.json(&Json::List(said))?;
    }
    if status == 0 {
        Ok(())
    } else {
        Err(Stop::said(status))
    }
}

/// An answer in lines.
fn lines(bench: &Bench, out: &Out, shown: &str, answer: &Answer) -> String {
    let mut text = format!("{}  {}\n", out.bold(shown), out.answer(answer.walk.word, &word(answer)));
    if let Some(rule) = bench.rule(answer) {
        text += &format!("    rule {rule}\n");
    }
    let waits = bench.waits(answer).map(|waits| format!(", {waits}")).unwrap_or_default();
    text + &format!("    {}{waits}\n", count(usize::from(answer.walk.edges), "edge"))
}
