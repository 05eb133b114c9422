//! `vt vectors`: calls with the library's replies in a file, for a board that can't be driven.

use super::args::{Args, Opt, OUTPUT};
use super::conform::{number, COUNT, SEED};
use super::out::{reason, Out};
use super::stop::{Stop, REFUSED};
use super::Command;
use crate::notation::count;
use crate::vectors::{check, write, Checked};
use std::fs::File;
use std::io::{self, BufWriter, ErrorKind, Write};

/// `--check`
const CHECK: Opt = Opt {
    long: "check",
    short: None,
    value: Some("FILE"),
    help: "make the calls of this file again; - is standard input",
};

pub const COMMAND: Command = Command {
    name: "vectors",
    usage: "-o FILE",
    summary: "write calls with the library's replies, or check such a file",
    about: "Writes the calls that `vt conform` makes with the same seed: each a line, and the library's reply the\n\
            next, as docs/CONFORMANCE.md describes. With --check the library makes every call of a file again.",
    options: &[SEED, COUNT, OUTPUT, CHECK],
    examples: &[
        ("vt vectors --seed 7 --count 1000 -o vectors.txt", "1,000 calls for a board"),
        ("vt vectors --check vectors.txt", "does the library still reply so?"),
    ],
    run,
};

fn run(args: &Args, out: &Out) -> Result<(), Stop> {
    if let Some(extra) = args.rest.first() {
        return Err(args.wrong(&format!("unexpected `{extra}`")));
    }
    match (args.value(OUTPUT), args.value(CHECK)) {
        (Some(path), None) => written(path, number(args, SEED, 1)?, number(args, COUNT, 10_000)?),
        (None, Some(path)) => checked(path, out),
        (None, None) => Err(args.wrong("expected -o FILE, or --check FILE")),
        (Some(_), Some(_)) => Err(args.wrong("expected -o or --check, not both")),
    }
}

/// Writes so many calls of a seed to a file, as they are made.
fn written(path: &str, seed: u64, calls: usize) -> Result<(), Stop> {
    let done = match path {
        "-" => write(seed, calls, &mut io::stdout().lock()),
        _ => File::create(path).and_then(|file| {
            let mut to = BufWriter::new(file);
            write(seed, calls, &mut to).and_then(|()| to.flush())
        }),
    };
    done.map_err(|error| match error.kind() {
        // Nobody reads on.
        ErrorKind::BrokenPipe => Stop::said(0),
        _ => Stop::wrong(format!("{path}: {}", reason(&error))),
    })
}

/// Makes every call of a file again.
fn checked(path: &str, out: &Out) -> Result<(), Stop> {
    let text = match path {
        "-" => io::read_to_string(io::stdin()),
        _ => std::fs::read_to_string(path),
    };
    let text = text.map_err(|error| Stop::wrong(format!("{path}: {}", reason(&error))))?;
    let fault = |(line, fault)| Stop::wrong(format!("{path}:{line}: {fault}"));
    let Checked { equal, unknown, differ } = check(&text).map_err(fault)?;
    for (line, said, reply) in &differ {
        out.say(&format!("{path}:{line}: other replies\n  file     {said}\n  library  {reply}\n"))?;
    }
    let unknown = match unknown {
        0 => String::new(),
        _ => format!(", {unknown} unknown"),
    };
    out.say(&format!("{} equal, {} different{unknown}\n", count(equal, "call"), differ.len()))?;
    match differ.is_empty() {
        true => Ok(()),
        false => Err(Stop::said(REFUSED)),
    }
}
