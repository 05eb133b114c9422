//! The help texts.

use super::args::{Opt, HELP};
use super::{Command, COMMANDS};

/// The help of `vt`.
pub fn all() -> String {
    let mut text = String::from(
        "vt: rule sheets as text, decision graphs as pictures, answers explained\n\n\
         Usage: vt COMMAND [OPTIONS] [ARGUMENTS]\n\nCommands:\n",
    );
    let width = COMMANDS.iter().map(|command| command.name.len()).max().unwrap_or(0);
    for command in COMMANDS {
        text += &format!("  {:width$}  {}\n", command.name, command.summary);
    }
    text + "\nFiles that end in .bin hold bytes, all others text unless --bytes is given; - is standard input.\n\
            Exit status: 0 done, 1 refused, 2 wrong use, 3 internal error.\n\n\
            `vt COMMAND --help` shows a command's options and examples.\n\
            docs/TUTORIAL.md begins at the beginning; docs/NOTATION.md describes the text.\n"
}

/// An option's names.
fn names(option: &Opt) -> String {
    let short = option.short.map_or("    ".into(), |short| format!("-{short}, "));
    let value = option.value.map(|value| format!(" {value}")).unwrap_or_default();
    format!("{short}--{}{value}", option.long)
}

/// The help of a command.
pub fn one(command: &Command) -> String {
    let Command { name, usage, summary, about, examples, .. } = command;
    let mut text =
        format!("vt {name}: {summary}\n\nUsage: vt {name} [OPTIONS] {usage}\n\n{about}\n\nOptions:\n");
    let options: Vec<&Opt> = command.options.iter().chain([&HELP]).collect();
    let width = options.iter().map(|option| names(option).len()).max().unwrap_or(0);
    for option in options {
        text += &format!("  {:width$}  {}\n", names(option), option.help);
    }
    text += "\nExamples:\n";
    for (line, what) in *examples {
        text += &format!("  {line}\n      {what}\n");
    }
    text
}
