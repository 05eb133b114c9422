//! `vt conform`: another maker's program against the library.

use super::args::{Args, Opt, JSON};
use super::out::{reason, Out};
use super::stop::{Stop, REFUSED};
use super::Command;
use crate::conform::{words, Coverage, Difference, Heard, Never, Outcome, Run, Section, Smallest};
use crate::json::Json;
use crate::notation::count;
use std::str::FromStr;
use std::time::Duration;
use voltunnis_generate::calls::Call;

/// `--program`
const PROGRAM: Opt = Opt {
    long: "program",
    short: None,
    value: Some("COMMAND"),
    help: "the program and its arguments; quotes keep spaces together",
};
/// `--seed`
pub const SEED: Opt =
    Opt { long: "seed", short: None, value: Some("S"), help: "the seed of the calls, 1 if not given" };
/// `--count`
pub const COUNT: Opt =
    Opt { long: "count", short: None, value: Some("N"), help: "how many calls, 10000 if not given" };
/// `--timeout`
const TIMEOUT: Opt = Opt {
    long: "timeout",
    short: None,
    value: Some("SECONDS"),
    help: "how long the program may think about one call, 10 if not given",
};

pub const COMMAND: Command = Command {
    name: "conform",
    usage: "--program COMMAND",
    summary: "compare another maker's program with the library, call by call",
    about:
        "Starts the program once and makes calls of it and of the library: good, hostile and damaged sheets,\n\
            pieces, graphs and buffers. A call is a line on its standard input, its reply a line on its standard\n\
            output, as docs/CONFORMANCE.md describes. The same seed gives the same calls.\n\n\
            A difference ends the run: its call is made as small as can be and shown in bytes, in the notation\n\
            and with both results. At the end stands what was covered. Exit status: 0 all equal, 1 a\n\
            difference, 2 wrong use.",
    options: &[PROGRAM, SEED, COUNT, TIMEOUT, JSON],
    examples: &[
        ("vt conform --program ./their-compiler", "10,000 calls"),
        ("vt conform --program './their-compiler --quick' --seed 7 --count 100000", "more, and others"),
    ],
    run,
};

/// The number that an option gives, or this one if it is not given.
pub fn number<T: FromStr>(args: &Args, option: Opt, without: T) -> Result<T, Stop> {
    match args.value(option) {
        Some(text) => {
            let message = || args.wrong(&format!("--{}: expected a number, not `{text}`", option.long));
            text.parse().map_err(|_| message())
        }
        None => Ok(without),
    }
}

fn run(args: &Args, out: &Out) -> Result<(), Stop> {
    let run = wanted(args)?;
    let outcome = run.compare().map_err(|error| {
        let program = run.words.first().map_or("", String::as_str);
        args.wrong(&format!("{program}: cannot be started: {}", reason(&error)))
    })?;
    match args.has(JSON) {
        true => out.json(&json(&run, &outcome))?,
        false => out.say(&text(&run, &outcome))?,
    }
    match outcome.is_equal() {
        true => Ok(()),
        false => Err(Stop::said(REFUSED)),
    }
}

/// What the options ask for.
fn wanted(args: &Args) -> Result<Run, Stop> {
    if let Some(extra) = args.rest.first() {
        return Err(args.wrong(&format!("unexpected `{extra}`: the program goes after --program, in quotes")));
    }
    let program = args.value(PROGRAM).ok_or_else(|| args.wrong("expected --program COMMAND"))?;
    let timeout = Duration::try_from_secs_f64(number(args, TIMEOUT, 10.0)?).ok();
    let timeout = timeout.filter(|timeout| !timeout.is_zero());
    Ok(Run {
        words: words(program).map_err(|fault| args.wrong(&format!("--program: {fault}")))?,
        seed: number(args, SEED, 1)?,
        count: number(args, COUNT, 10_000)?,
        timeout: timeout.ok_or_else(|| args.wrong("--timeout: expected seconds, more than 0"))?,
    })
}

/// What people read.
fn text(run: &Run, Outcome { coverage, difference }: &Outcome) -> String {
    let (compared, unknown) = (coverage.compared(), coverage.unknown());
    let calls = format!("{} of seed {}", count(compared, "call"), run.seed);
    if let Some(difference) = difference {
        return format!("{}\nEqual before it: {calls}.\n{coverage}", difference.show());
    }
    let first = match (compared, unknown) {
        (_, 0) => format!("{calls}: all equal."),
        (0, _) => format!("The program knows none of {}.", count(unknown, "call")),
        _ => format!("{calls}: all equal; {unknown} more are unknown to the program."),
    };
    format!("{first}\n{coverage}{}", Never(coverage))
}

/// What programs read.
fn json(run: &Run, outcome: &Outcome) -> Json {
    Json::Object(vec![
        ("seed", Json::number(run.seed)),
        ("equal", Json::Bool(outcome.is_equal())),
        ("compared", Json::count(outcome.coverage.compared())),
        ("difference", outcome.difference.as_ref().map_or(Json::Null, difference_json)),
        ("covered", covered_json(&outcome.coverage)),
    ])
}

fn difference_json(difference: &Difference) -> Json {
    let case = |call: &Call, heard: &Heard| {
        let said = match heard {
            Heard::Line(line) => Json::text(line),
            _ => Json::Null,
        };
        Json::Object(vec![
            ("call", Json::text(call.to_string())),
            ("library", Json::text(crate::conform::reply(call).to_string())),
            ("program", said),
            ("heard", Json::text(heard.to_string())),
        ])
    };
    let before = |smallest: &Smallest| {
        Json::List(smallest.before.iter().map(|call| Json::text(call.to_string())).collect())
    };
    let smallest = difference.smallest.as_ref();
    Json::Object(vec![
        ("number", Json::count(difference.number)),
        ("found", case(&difference.call, &difference.heard)),
        ("before", smallest.map_or(Json::Null, before)),
        ("smallest", smallest.map_or(Json::Null, |smallest| case(&smallest.call, &smallest.heard))),
    ])
}

/// How often each thing was met, of those that were.
fn covered_json(coverage: &Coverage) -> Json {
    let counts = |section: &Section| {
        let count = |(name, count): &(String, usize)| Json::List(vec![Json::text(name), Json::count(*count)]);
        Json::List(section.counts.iter().filter(|(_, count)| *count > 0).map(count).collect())
    };
    Json::Object(coverage.sections().iter().map(|section| (section.title, counts(section))).collect())
}
