//! The program `vt`: its commands, and what they have in common.

mod answers;
pub mod args;
mod build;
mod bytes;
mod check;
mod conform;
mod draw;
mod explain;
mod gauges;
mod help;
pub mod input;
mod lift;
mod listing;
mod nevers;
mod order;
pub mod out;
mod picture;
pub mod pieces;
mod refused;
pub mod source;
mod spans;
pub mod stop;
mod table;
mod text;
mod tidy;
mod track;
mod track_order;
mod try_pieces;
mod vectors;

use crate::notation::distance;
use args::{Args, Opt, HELP, JSON};
use out::Out;
use stop::Stop;

/// A command of `vt`.
pub struct Command {
    pub name: &'static str,
    /// What follows its name.
    pub usage: &'static str,
    /// What it does, in a line.
    pub summary: &'static str,
    /// What else is to be known.
    pub about: &'static str,
    /// Its options, `--help` apart.
    pub options: &'static [Opt],
    /// Command lines, each with what it does.
    pub examples: &'static [(&'static str, &'static str)],
    pub run: fn(&Args, &Out) -> Result<(), Stop>,
}

/// All commands, in the order in which help lists them.
pub const COMMANDS: &[Command] = &[
    check::COMMAND,
    bytes::COMMAND,
    text::COMMAND,
    tidy::COMMAND,
    track_order::COMMAND,
    build::COMMAND,
    lift::COMMAND,
    draw::COMMAND,
    try_pieces::COMMAND,
    explain::COMMAND,
    listing::COMMAND,
    conform::COMMAND,
    vectors::COMMAND,
];

/// Runs `vt` with the words after the program's name; gives the exit status.
pub fn run(words: &[String]) -> u8 {
    let out = Out::new();
    match dispatch(words, &out) {
        Ok(()) => 0,
        Err(stop) => {
            out.complain(&stop.message);
            stop.status
        }
    }
}

fn dispatch(words: &[String], out: &Out) -> Result<(), Stop> {
    let Some((name, rest)) = words.split_first() else {
        out.complain(&help::all());
        return Err(Stop::said(stop::WRONG_USE));
    };
    match (name.as_str(), rest) {
        ("-h" | "--help" | "help", []) => return out.say(&help::all()),
        ("help", [name, ..]) => return out.say(&help::one(find(name)?)),
        ("-V" | "--version", _) => return out.say(concat!("vt ", env!("CARGO_PKG_VERSION"), "\n")),
        _ => {}
    }
    let command = find(name)?;
    let options: Vec<Opt> = command.options.iter().copied().chain([HELP]).collect();
    let args = Args::read(command.name, &options, rest)?;
    if args.has(HELP) {
        return out.say(&help::one(command));
    }
    (command.run)(&args, out).map_err(|stop| as_json(&args, out, stop))
}

/// Says a refusal to programs, if they ask.
fn as_json(args: &Args, out: &Out, mut stop: Stop) -> Stop {
    if let (true, Some(json)) = (args.has(JSON), stop.json.take()) {
        stop.message.clear();
        if let Err(other) = out.json(&json) {
            return other;
        }
    }
    stop
}

/// The command of this name.
fn find(name: &str) -> Result<&'static Command, Stop> {
    COMMANDS.iter().find(|command| command.name == name).ok_or_else(|| {
        let close = COMMANDS.iter().min_by_key(|command| distance(command.name, name));
        let close = close.filter(|command| distance(command.name, name) <= 2);
        let help = close.map(|command| format!("; did you mean `{}`?", command.name)).unwrap_or_default();
        Stop::wrong(format!("unknown command `{name}`{help}\nSee `vt --help`."))
    })
}
