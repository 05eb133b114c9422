//! Inputs: files and standard input, text or bytes.

use super::args::{Args, BYTES};
use super::out::reason;
use super::stop::Stop;
use super::track::POSITIONS;
use crate::notation::declares;
use std::ffi::OsStr;
use std::io::Read;
use std::path::Path;
use voltunnis::ORDER_BYTES;

/// What an input holds.
pub enum Content {
    Text(String),
    Bytes(Vec<u8>),
}

/// An input: its name for messages, and what it holds.
pub struct Source {
    pub name: String,
    pub content: Content,
    /// Whether bytes are said to be track positions.
    positions: bool,
}

/// What an input is about, by the ending of its name or an option, or else by its first word or byte.
#[derive(Clone, Copy, Debug, PartialEq, Eq)]
pub enum About {
    Sheet,
    Pieces,
    Graph,
    Order,
    Track,
}

/// Whether a file of this name holds bytes.
pub fn holds_bytes(path: &str) -> bool {
    Path::new(path).extension().is_some_and(|ending| ending == "bin")
}

impl Source {
    /// Reads a file, or standard input for `-`. A file that ends in .bin holds bytes, one that ends in
    /// .sheet, .pieces, .graph, .order, .track or .txt text; any other, and standard input, text unless
    /// `--bytes` or `--positions` is given.
    pub fn load(path: &str, args: &Args) -> Result<Source, Stop> {
        let mut bytes = Vec::new();
        let (name, read) = match path {
            "-" => ("standard input", std::io::stdin().lock().read_to_end(&mut bytes).map(drop)),
            _ => (path, std::fs::read(path).map(|read| bytes = read)),
        };
        read.map_err(|error| Stop::wrong(format!("{name}: {}", reason(&error))))?;
        let is_bytes = match Path::new(path).extension().and_then(OsStr::to_str) {
            Some("sheet" | "pieces" | "graph" | "order" | "track" | "txt") => false,
            _ => holds_bytes(path) || args.has(BYTES) || args.has(POSITIONS),
        };
        let source = |content| Source { name: name.into(), content, positions: args.has(POSITIONS) };
        if is_bytes {
            return Ok(source(Content::Bytes(bytes)));
        }
        if matches!(bytes.first(), Some(0x00..=0x02 | 0x10..=0x12)) {
            let help = "it begins as bytes do: call it .bin or say --bytes";
            return Err(Stop::wrong(format!("{name}: not a text; {help}")));
        }
        match String::from_utf8(bytes) {
            Ok(text) => Ok(source(Content::Text(text))),
            Err(error) => {
                let at = error.utf8_error().valid_up_to();
                Err(Stop::wrong(format!("{name}: not a text: byte {at} is no character of UTF-8")))
            }
        }
    }

    /// Its text, if it holds one.
    pub fn text(&self) -> Option<&str> {
        match &self.content {
            Content::Text(text) => Some(text),
            Content::Bytes(_) => None,
        }
    }

    /// What it is about.
    pub fn about(&self) -> About {
        match &self.content {
            Content::Text(_) if self.name.ends_with(".sheet") => About::Sheet,
            Content::Text(_) if self.name.ends_with(".pieces") => About::Pieces,
            Content::Text(_) if self.name.ends_with(".graph") => About::Graph,
            Content::Text(_) if self.name.ends_with(".order") => About::Order,
            Content::Text(_) if self.name.ends_with(".track") => About::Track,
            Content::Bytes(_) if self.positions => About::Track,
            Content::Bytes(bytes) => match bytes.first() {
                Some(0x10) => About::Sheet,
                Some(0x11) => About::Pieces,
                Some(0x12) => About::Graph,
                // A table has no head: it begins with a place, of which the high byte is 0 to 2.
                Some(0x00..=0x02) => About::Order,
                _ if bytes.len() == ORDER_BYTES => About::Order,
                _ => About::Sheet,
            },
            Content::Text(text) => {
                let declares = |line: &str| line.split(' ').next().is_some_and(declares);
                let telling = |line: &&str| !(line.is_empty() || line.starts_with("--") || declares(line));
                let first = text.lines().map(str::trim_start).find(telling);
                match first {
                    Some(line) if line.starts_with("graph") => About::Graph,
                    Some(line) if line.starts_with("order") => About::Order,
                    Some(line) if line.starts_with("track") => About::Track,
                    Some(line) if line.starts_with('(') => About::Pieces,
                    _ => About::Sheet,
                }
            }
        }
    }
}
