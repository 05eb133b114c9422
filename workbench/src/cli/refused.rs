//! Refusals as people read them: the question in document 01's words, and where it got a no.

use super::source::Source;
use super::stop::Stop;
use crate::json::{Fields, Json};
use crate::locate::Where;
use crate::notation::{position, Fault, Span, Unread};
use voltunnis::Refusal;

/// At most so many bytes of a record are shown.
const SHOWN: usize = 16;

/// A text that cannot be parsed.
pub fn fault(source: &str, text: &str, fault: &Fault) -> Stop {
    let at = position(text, fault.span.start);
    let json = Json::Object(vec![
        ("file", Json::text(source)),
        ("accepted", Json::Bool(false)),
        ("line", Json::count(at.line)),
        ("column", Json::count(at.column)),
        ("message", Json::text(&fault.message)),
    ]);
    Stop::refused(fault.show(source, text), json)
}

/// Bytes that cannot be read.
pub fn unread(name: &str, unread: &Unread) -> Stop {
    let json = Json::Object(vec![
        ("file", Json::text(name)),
        ("accepted", Json::Bool(false)),
        ("byte", Json::count(unread.at)),
        ("message", Json::text(format!("expected {}", unread.expected))),
    ]);
    Stop::refused(format!("{name}: {unread}\n"), json)
}

/// The fields that say a refusal.
fn fields(name: &str, refusal: Refusal) -> Fields {
    vec![
        ("file", Json::text(name)),
        ("accepted", Json::Bool(false)),
        ("refusal", Json::number(refusal.number())),
        ("question", Json::text(refusal.question())),
    ]
}

/// A refusal of a text, marked there.
pub fn in_text(name: &str, text: &str, refusal: Refusal, span: Span) -> Stop {
    let at = position(text, span.start);
    let shown = Fault::new(span, refusal.to_string()).show(name, text);
    let mut json = fields(name, refusal);
    json.extend([("line", Json::count(at.line)), ("column", Json::count(at.column))]);
    Stop::refused(shown, Json::Object(json))
}

/// A refusal of bytes, with the record that is meant.
pub fn in_bytes(name: &str, bytes: &[u8], refusal: Refusal, place: Where) -> Stop {
    let (at, rule) = match place {
        Where::Head => (Span::new(0, bytes.len().min(3)), 0),
        Where::Record { at, rule, .. } => (at, rule),
        Where::Rest(start) => (Span::new(start, bytes.len()), 0),
    };
    let part = bytes.get(at.start..at.end).unwrap_or(&[]);
    let hex: Vec<String> = part.iter().take(SHOWN).map(|byte| format!("{byte:02x}")).collect();
    let more = if part.len() > SHOWN { " .." } else { "" };
    let rule = if rule > 0 { format!(", rule {rule}") } else { String::new() };
    let found = if hex.is_empty() { "the end".into() } else { hex.join(" ") + more };
    let shown = format!("{name}: {refusal}\n  byte {}{rule}: {found}\n", at.start);
    let mut json = fields(name, refusal);
    json.push(("byte", Json::count(at.start)));
    Stop::refused(shown, Json::Object(json))
}

/// A refusal of the whole.
pub fn whole(name: &str, refusal: Refusal, why: &str) -> Stop {
    let help = if why.is_empty() { String::new() } else { format!("  {why}\n") };
    Stop::refused(format!("{name}: {refusal}\n{help}"), Json::Object(fields(name, refusal)))
}

/// A refusal in a source: in its text at a part of it, or in its bytes.
pub fn in_source(
    source: &Source,
    bytes: &[u8],
    refusal: Refusal,
    place: Where,
    part: impl Fn(Where) -> Span,
) -> Stop {
    match source.text() {
        Some(text) => in_text(&source.name, text, refusal, part(place)),
        None => in_bytes(&source.name, bytes, refusal, place),
    }
}
