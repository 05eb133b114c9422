//! `vt tidy`: the tidy form of a sheet.

use super::args::{Args, BYTES, JSON, OUTPUT};
use super::input::SheetInput;
use super::out::Out;
use super::refused;
use super::source::holds_bytes;
use super::stop::Stop;
use super::Command;
use crate::json::Json;
use crate::notation::Sheet;

pub const COMMAND: Command = Command {
    name: "tidy",
    usage: "SHEET",
    summary: "write a sheet in the one form that all sheets with its tests have",
    about: "Two offices may write the same sheet with other variables. Tidy sheets are equal, byte for byte,\n\
            exactly when they have the same arity and, rule for rule, the same tests: variables are numbered by\n\
            first appearance, one that stands once is written as `_` or its range, a repeated one with its common\n\
            range, if any, at each of its places, and a series of one symbol as that symbol.\n\n\
            Prints the tidy sheet as text: with the sheet's names, without its comments. With -o it goes to a\n\
            file, as bytes if the file's name ends in .bin.",
    options: &[OUTPUT, BYTES, JSON],
    examples: &[
        ("vt tidy coins.sheet", "show the tidy sheet"),
        ("vt tidy coins.sheet -o tidy.bin", "write its bytes to a file, to compare them with another office's"),
    ],
    run,
};

fn run(args: &Args, out: &Out) -> Result<(), Stop> {
    let [path] = &args.rest[..] else { return Err(args.wrong("expected one sheet")) };
    let SheetInput { source, names, bytes, .. } = SheetInput::load(path, args)?;
    let bytes = voltunnis::tidy_sheet(&bytes).map_err(|refusal| refused::whole(&source.name, refusal, ""))?;
    let sheet = Sheet::read(&bytes).map_err(|_| Stop::internal("a tidy sheet that cannot be read"))?;
    write(args, out, "sheet", &bytes, sheet.print(&names))
}

/// Writes what a call wrote to the file that is named, as bytes if its name ends in .bin, or shows it as text.
pub fn write(args: &Args, out: &Out, kind: &str, bytes: &[u8], text: String) -> Result<(), Stop> {
    let mut json = vec![("kind", Json::text(kind))];
    if let Some(path) = args.value(OUTPUT) {
        out.file(path, if holds_bytes(path) { bytes } else { text.as_bytes() })?;
        json.push(("file", Json::text(path)));
    }
    if args.has(JSON) {
        let (length, bytes) = (Json::count(bytes.len()), Json::bytes(bytes));
        json.extend([("length", length), ("bytes", bytes), ("text", Json::text(text))]);
        return out.json(&Json::Object(json));
    }
    match args.value(OUTPUT) {
        Some(_) => Ok(()),
        None => out.say(&text),
    }
}
