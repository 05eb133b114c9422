//! Parts of a source, and faults found in it: where they are, what was expected, the line shown.

use std::fmt::{self, Write};

/// A part of a text or of bytes: from one offset to just before another.
#[derive(Clone, Copy, Debug, Default, PartialEq, Eq)]
pub struct Span {
    pub start: usize,
    pub end: usize,
}

impl Span {
    pub fn new(start: usize, end: usize) -> Span {
        Span { start, end }
    }

    /// From the start of one to the end of another.
    pub fn to(self, end: Span) -> Span {
        Span { start: self.start, end: end.end }
    }
}

/// A line and a column of a text, both from 1. Columns count characters.
#[derive(Clone, Copy, Debug, PartialEq, Eq)]
pub struct Position {
    pub line: usize,
    pub column: usize,
}

/// Where an offset of a text stands.
pub fn position(text: &str, offset: usize) -> Position {
    let before = &text.as_bytes()[..offset.min(text.len())];
    let line = before.iter().filter(|byte| **byte == b'\n').count() + 1;
    let start = before.iter().rposition(|byte| *byte == b'\n').map_or(0, |at| at + 1);
    // A byte that is not the first of its character has the two highest bits 10.
    let column = before[start..].iter().filter(|byte| **byte & 0xc0 != 0x80).count() + 1;
    Position { line, column }
}

/// What is wrong with a text, and where.
#[derive(Clone, Debug, PartialEq, Eq)]
pub struct Fault {
    pub span: Span,
    /// What is wrong: what was expected and what was found.
    pub message: String,
    /// What may help, if anything does.
    pub help: Option<String>,
}

impl Fault {
    pub fn new(span: Span, message: impl Into<String>) -> Fault {
        Fault { span, message: message.into(), help: None }
    }

    pub fn help(mut self, help: impl Into<String>) -> Fault {
        self.help = Some(help.into());
        self
    }

    /// The fault as people read it: the source's name, line and column, what is wrong, the line with
    /// the part marked, and what may help.
    pub fn show(&self, name: &str, text: &str) -> String {
        let Position { line, column } = position(text, self.span.start);
        let mut shown = format!("{name}:{line}:{column}: {}\n", self.message);
        excerpt(&mut shown, text, self.span).expect("a string takes all");
        if let Some(help) = &self.help {
            writeln!(shown, "help: {help}").expect("a string takes all");
        }
        shown
    }
}

/// How many characters of a line are shown before and after the part that is marked.
const AROUND: usize = 60;

/// Writes the line in which a part begins, with carets under the part. Of a long line the
/// neighbourhood is shown.
fn excerpt(to: &mut String, text: &str, span: Span) -> fmt::Result {
    let Position { line, column } = position(text, span.start);
    let whole: Vec<char> = text.split('\n').nth(line - 1).unwrap_or("").trim_end().chars().collect();
    let at = (column - 1).min(whole.len());
    let marked = text.get(span.start..span.end).unwrap_or("").lines().next().unwrap_or("").chars().count();
    let width = marked.min(whole.len() - at).max(1);
    let (from, until) = (at.saturating_sub(AROUND), (at + width.min(AROUND) + AROUND).min(whole.len()));
    let clean = |c: &char| if c.is_control() { ' ' } else { *c };
    let shown: String = whole[from..until].iter().map(clean).collect();
    let cut = |is: bool| if is { "…" } else { "" };
    let (before, after) = (cut(from > 0), cut(until < whole.len()));
    let number = line.to_string();
    writeln!(to, "{}", format!("  {number} | {before}{shown}{after}").trim_end())?;
    let lead = " ".repeat(at - from + before.chars().count());
    writeln!(to, "  {} | {lead}{}", " ".repeat(number.len()), "^".repeat(width.min(until - at).max(1)))
}
