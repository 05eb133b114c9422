//! The words of a command line: options as the command declares them, and the rest.

use super::stop::Stop;
use crate::notation::distance;

/// An option.
#[derive(Clone, Copy)]
pub struct Opt {
    pub long: &'static str,
    pub short: Option<char>,
    /// What its value is, if it has one.
    pub value: Option<&'static str>,
    pub help: &'static str,
}

/// `--json`
pub const JSON: Opt = Opt { long: "json", short: None, value: None, help: "write JSON, for programs" };
/// `--help`
pub const HELP: Opt = Opt { long: "help", short: Some('h'), value: None, help: "show this help" };
/// `--bytes`
pub const BYTES: Opt = Opt {
    long: "bytes",
    short: None,
    value: None,
    help: "read standard input, and files of no known ending, as bytes",
};
/// `--output`
pub const OUTPUT: Opt = Opt {
    long: "output",
    short: Some('o'),
    value: Some("FILE"),
    help: "write to this file; - is standard output",
};

/// A command line that was read.
#[derive(Clone, Debug, Default)]
pub struct Args {
    /// The command's name.
    pub command: &'static str,
    /// What is no option.
    pub rest: Vec<String>,
    flags: Vec<&'static str>,
    values: Vec<(&'static str, String)>,
}

impl Args {
    /// Reads the words after the command's name. After `--` no word is an option.
    pub fn read(command: &'static str, options: &[Opt], words: &[String]) -> Result<Args, Stop> {
        let mut args = Args { command, ..Args::default() };
        let mut words = words.iter();
        while let Some(word) = words.next() {
            if word == "--" {
                args.rest.extend(words.cloned());
                break;
            }
            let (name, given) = match word.strip_prefix("--") {
                Some(long) => match long.split_once('=') {
                    Some((name, value)) => (name.to_string(), Some(value.to_string())),
                    None => (long.to_string(), None),
                },
                None if word.len() > 1 && word.starts_with('-') => {
                    let (first, value) =
                        word[1..].split_at(word[1..].chars().next().map_or(0, char::len_utf8));
                    (first.to_string(), (!value.is_empty()).then(|| value.to_string()))
                }
                None => {
                    args.rest.push(word.clone());
                    continue;
                }
            };
            let option = find(options, &name).ok_or_else(|| args.unknown(options, word, &name))?;
            match (option.value, given) {
                (None, None) => args.flags.push(option.long),
                (None, Some(_)) => {
                    return Err(args.wrong(&format!("option `--{}` takes no value", option.long)))
                }
                (Some(what), given) => {
                    let value = given.or_else(|| words.next().cloned());
                    let missing = || args.wrong(&format!("option `{word}` needs a value: {what}"));
                    let value = value.ok_or_else(missing)?;
                    args.values.push((option.long, value));
                }
            }
        }
        Ok(args)
    }

    /// Whether an option without a value is given.
    pub fn has(&self, option: Opt) -> bool {
        self.flags.contains(&option.long)
    }

    /// The value of an option, the last one if it is given again.
    pub fn value(&self, option: Opt) -> Option<&str> {
        self.values.iter().rev().find(|(name, _)| *name == option.long).map(|(_, value)| value.as_str())
    }

    /// The command was used wrongly.
    pub fn wrong(&self, message: &str) -> Stop {
        Stop::wrong(format!("{message}\nSee `vt {} --help`.", self.command))
    }

    fn unknown(&self, options: &[Opt], word: &str, name: &str) -> Stop {
        let close =
            options.iter().filter(|_| word.starts_with("--")).find(|known| distance(known.long, name) <= 2);
        let help = close.map(|known| format!("; did you mean `--{}`?", known.long)).unwrap_or_default();
        self.wrong(&format!("unknown option `{word}`{help}"))
    }
}

/// The option of this name, long or short.
fn find(options: &[Opt], name: &str) -> Option<Opt> {
    let is =
        |option: &&Opt| option.long == name || option.short.is_some_and(|short| name == short.to_string());
    options.iter().find(is).copied()
}
