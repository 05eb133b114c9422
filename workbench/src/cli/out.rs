//! What a command says: results on standard output, problems on standard error, in colour only when a
//! terminal looks on.

use super::stop::Stop;
use crate::json::Json;
use std::io::{self, ErrorKind, IsTerminal, Write};
use std::path::Path;
use voltunnis::Word;

/// Where a command speaks.
pub struct Out {
    colour: bool,
}

impl Out {
    /// Standard output, in colour if it is a terminal. NO_COLOR and CLICOLOR_FORCE are heeded.
    pub fn new() -> Out {
        let set = |name: &str| std::env::var_os(name).is_some_and(|value| !value.is_empty());
        let dumb = std::env::var_os("TERM").is_some_and(|term| term == "dumb");
        let looks = io::stdout().is_terminal() && !dumb;
        let forced = std::env::var_os("CLICOLOR_FORCE").is_some_and(|value| value != "0");
        Out { colour: !set("NO_COLOR") && (looks || forced) }
    }

    /// Writes bytes to standard output. If nobody reads them the command ends quietly.
    pub fn bytes(&self, bytes: &[u8]) -> Result<(), Stop> {
        let mut to = io::stdout().lock();
        match to.write_all(bytes).and_then(|()| to.flush()) {
            Ok(()) => Ok(()),
            Err(error) if error.kind() == ErrorKind::BrokenPipe => Err(Stop::said(0)),
            Err(error) => Err(Stop::wrong(format!("standard output: {error}"))),
        }
    }

    /// Writes text to standard output.
    pub fn say(&self, text: &str) -> Result<(), Stop> {
        self.bytes(text.as_bytes())
    }

    /// Writes a value for programs.
    pub fn json(&self, value: &Json) -> Result<(), Stop> {
        self.say(&format!("{value}\n"))
    }

    /// Writes whole lines to standard error.
    pub fn complain(&self, lines: &str) {
        // Where nobody reads the problems there is nobody to tell.
        let _ = io::stderr().write_all(lines.as_bytes());
    }

    /// Writes bytes to a file; `-` is standard output.
    pub fn file(&self, path: &str, bytes: &[u8]) -> Result<(), Stop> {
        match path {
            "-" => self.bytes(bytes),
            _ => std::fs::write(Path::new(path), bytes)
                .map_err(|error| Stop::wrong(format!("{path}: {}", reason(&error)))),
        }
    }

    fn painted(&self, code: &str, text: &str) -> String {
        match self.colour {
            true => format!("\u{1b}[{code}m{text}\u{1b}[0m"),
            false => text.into(),
        }
    }

    pub fn bold(&self, text: &str) -> String {
        self.painted("1", text)
    }

    pub fn dim(&self, text: &str) -> String {
        self.painted("2", text)
    }

    /// Text in the colour of an answer's word.
    pub fn answer(&self, word: Word, text: &str) -> String {
        let code = match word {
            Word::Commit => "1;32",
            Word::Execute => "1;36",
            Word::Suspend => "1;33",
            Word::Fail => "1;31",
        };
        self.painted(code, text)
    }
}

impl Default for Out {
    fn default() -> Out {
        Out::new()
    }
}

/// What the operating system says, without its number.
pub fn reason(error: &io::Error) -> String {
    let text = error.to_string();
    text.split(" (os error").next().unwrap_or(&text).to_string()
}
