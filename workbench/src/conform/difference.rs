//! A difference between the library and another maker's program, and how it is shown.

use super::program::{Heard, Program};
use super::replies::{fields, graph_in, reply};
use crate::notation::{count, print_graph, print_order, print_piece, print_sheet, print_track, Piece};
use std::fmt::Write;
use std::io;
use voltunnis::Refusal;
use voltunnis_generate::calls::{Call, Role};
use voltunnis_generate::shrink::{fewest, smallest};

/// The most calls that making a case smaller may take.
const QUESTIONS: usize = 20_000;

/// Of these, the most to which the program may say nothing.
const SILENCES: usize = 6;

/// The most times that the program is started to find the calls that must come before one.
const RESTARTS: usize = 200;

/// A call to which library and program say different things.
pub struct Difference {
    /// The call's number in the stream, from 1.
    pub number: usize,
    pub call: Call,
    pub heard: Heard,
    /// What is left of it, if it was found again with the program started anew.
    pub smallest: Option<Smallest>,
    /// How many calls it took to find that.
    pub questions: usize,
}

/// The smallest call that still differs.
pub struct Smallest {
    /// The calls that must be made before it.
    pub before: Vec<Call>,
    pub call: Call,
    /// What the program says to it.
    pub heard: Heard,
}

/// Whether the program's words to a call are other than the library's.
pub fn differs(call: &Call, heard: &Heard) -> bool {
    match heard {
        Heard::Line(line) => *line != reply(call).to_string(),
        Heard::Unknown => false,
        Heard::Ended(_) | Heard::Silent(_) | Heard::TooLong => true,
    }
}

impl Difference {
    /// Makes the case smaller, with the program started anew. `before` are the calls made before this one.
    pub fn new(
        number: usize,
        (call, heard): (Call, Heard),
        start: &dyn Fn() -> io::Result<Program>,
        before: &dyn Fn() -> Vec<Call>,
    ) -> Difference {
        let mut questions = 0;
        let smallest = match alone(&call, start, &mut questions) {
            Some((call, heard)) => Some(Smallest { before: Vec::new(), call, heard }),
            None => after_others(&call, &before(), start, &mut questions),
        };
        Difference { number, call, heard, smallest, questions }
    }

    /// The difference as text: the call, and the smallest one in bytes, in the notation and with both
    /// results.
    pub fn show(&self) -> String {
        let mut text = format!("call {} differs: {}\n", self.number, self.call.name().text());
        let Some(Smallest { before, call, heard }) = &self.smallest else {
            text += "Asked again, the program says what the library says.\n\n";
            return text + &show_case(&self.call, &self.heard);
        };
        if !before.is_empty() {
            text += "Asked this call alone, the program says what the library says; not so after\n";
            before.iter().for_each(|call| text += &format!("{call}\n"));
            return text + "\n" + &show_case(call, heard);
        }
        let bytes = |call: &Call| call.arguments().map(|(_, bytes)| bytes.len()).sum::<usize>();
        let [from, to] = [&self.call, call].map(|call| count(bytes(call), "byte"));
        let calls = count(self.questions, "call");
        text + &format!("Made smaller by {calls}, from {from} to {to}:\n\n") + &show_case(call, heard)
    }
}

/// The smallest call that differs when it is asked alone, from this one; none if this one doesn't.
fn alone(
    call: &Call,
    start: &dyn Fn() -> io::Result<Program>,
    questions: &mut usize,
) -> Option<(Call, Heard)> {
    let mut program = start().ok()?;
    let mut silences = 0;
    let mut last = None;
    let mut shows = |call: &Call| {
        if silences == SILENCES {
            return false;
        }
        *questions += 1;
        let heard = program.ask(call.to_string());
        silences += usize::from(matches!(heard, Heard::Silent(_)));
        let shows = differs(call, &heard);
        if shows {
            last = Some((call.clone(), heard));
        }
        shows
    };
    if shows(call) {
        smallest(call, &graph_in, &mut shows, QUESTIONS);
    }
    last
}

/// The fewest of the calls before it after which a call differs.
fn after_others(
    call: &Call,
    before: &[Call],
    start: &dyn Fn() -> io::Result<Program>,
    questions: &mut usize,
) -> Option<Smallest> {
    let mut last = None;
    let mut shows = |before: &[Call]| {
        let Ok(mut program) = start() else { return false };
        *questions += before.len() + 1;
        before.iter().for_each(|call| drop(program.ask(call.to_string())));
        let heard = program.ask(call.to_string());
        let shows = differs(call, &heard);
        if shows {
            last = Some(Smallest { before: before.to_vec(), call: call.clone(), heard });
        }
        shows
    };
    let doubled = |length: &usize| (*length < before.len()).then(|| before.len().min(length * 2));
    let lengths = std::iter::successors((!before.is_empty()).then_some(1), doubled);
    let found = lengths.map(|length| &before[before.len() - length..]).find(|before| shows(before))?;
    fewest(found, &mut shows, RESTARTS);
    last
}

/// A call in bytes and in the notation, and both results.
fn show_case(call: &Call, heard: &Heard) -> String {
    let mut text = format!("{call}\n\n");
    for (role, bytes) in call.arguments() {
        let said = in_notation(role, bytes);
        let said = said.trim_end().lines().enumerate().map(|(at, line)| match at {
            0 => format!("{:<8}{line}\n", role.text()),
            _ => format!("{:<8}{line}\n", ""),
        });
        text.extend(said);
    }
    let reply = reply(call);
    let _ = write!(text, "\nlibrary  {}\nprogram  {}\n", cut(&reply.to_string()), cut(&heard.to_string()));
    match &reply.result {
        Ok(values) => {
            let named = fields(call.name()).iter().zip(values.split(' '));
            let named: Vec<String> = named.map(|(field, value)| format!("{field} {value}")).collect();
            let _ = writeln!(text, "\nThe library says: {}.", said(&named));
        }
        Err(refusal) => {
            let _ = writeln!(text, "\nThe library says: {refusal}");
        }
    }
    if let Heard::Line(line) = heard {
        text += &in_words(call, line);
        if reply.buffer.is_some() {
            text.extend(first_byte(&reply.to_string(), line));
        }
    }
    text
}

/// Fields in words; that all is well, if there are none.
fn said(fields: &[String]) -> String {
    match fields {
        [] => "accepted".into(),
        _ => fields.join(", "),
    }
}

/// What the program said, in words.
fn in_words(call: &Call, line: &str) -> String {
    let mut words = line.split(' ');
    let fields = fields(call.name());
    match words.next() {
        Some("ok") => {
            let values: Vec<&str> = words.collect();
            if values.len() != fields.len() + usize::from(call.argument(Role::Buffer).is_some()) {
                let wanted = if fields.is_empty() { "none".into() } else { fields.join(", ") };
                return format!("The program's line has other fields than {wanted}.\n");
            }
            let named = fields.iter().zip(values).map(|(field, value)| format!("{field} {}", plain(value)));
            format!("The program says: {}.\n", said(&named.collect::<Vec<_>>()))
        }
        Some("refused") => {
            let number = words.next().and_then(|number| number.parse().ok());
            match number.and_then(Refusal::from_number) {
                Some(refusal) => format!("The program says: {refusal}\n"),
                None => "The program refuses by a question that the library does not have.\n".into(),
            }
        }
        _ => "The program's line is no reply: a reply begins with ok, refused or unknown.\n".into(),
    }
}

/// Where the buffers of two replies first differ, if all before them is the same.
fn first_byte(library: &str, program: &str) -> Option<String> {
    let ((head, ours), (other, theirs)) = (library.rsplit_once(' ')?, program.rsplit_once(' ')?);
    if head != other || ours.len() != theirs.len() {
        return None;
    }
    let at = ours.bytes().zip(theirs.bytes()).position(|(ours, theirs)| ours != theirs)? / 2;
    let why = match head.starts_with("refused") {
        true => " A refusal changes no byte.",
        false => "",
    };
    Some(format!("The buffers differ first at byte {at}.{why}\n"))
}

/// What an argument is, as people write it; bytes that spell nothing as they are.
fn in_notation(role: Role, bytes: &[u8]) -> String {
    let printed = match role {
        Role::Sheet => print_sheet(bytes),
        Role::Piece => print_piece(bytes),
        Role::Graph => print_graph(bytes),
        Role::Order => print_order(bytes),
        Role::Positions => print_track(bytes),
        Role::Pieces => return pieces_in_notation(bytes),
        Role::Buffer => return format!("{} long", count(bytes.len(), "byte")),
    };
    let most = 60;
    match printed {
        Ok(text) if text.lines().count() > most => {
            let kept: Vec<&str> = text.lines().take(most).collect();
            format!("{}\n.. {} lines more", kept.join("\n"), text.lines().count() - most)
        }
        Ok(text) => text,
        Err(_) => format!("no {} that can be read, {} long", role.text(), count(bytes.len(), "byte")),
    }
}

/// Pieces one a line, and what is left after them.
fn pieces_in_notation(mut bytes: &[u8]) -> String {
    let mut text = String::new();
    while let Ok(length) = Piece::length(bytes) {
        let (one, rest) = bytes.split_at(length);
        text += &format!("{}\n", print_piece(one).unwrap_or_default());
        bytes = rest;
    }
    match (bytes.len(), text.is_empty()) {
        (0, true) => "none".into(),
        (0, false) => text,
        (left, _) => format!("{text}no piece that can be read, {} long", count(left, "byte")),
    }
}

/// Text without the characters that a terminal obeys.
fn plain(text: &str) -> String {
    text.chars().map(|c| if c.is_control() { char::REPLACEMENT_CHARACTER } else { c }).collect()
}

/// A line, with its middle left out if it is very long.
fn cut(line: &str) -> String {
    const MOST: usize = 4_000;
    let chars = line.chars().count();
    if chars <= MOST {
        return plain(line);
    }
    let head: String = line.chars().take(MOST / 2).collect();
    let tail: String = line.chars().skip(chars - MOST / 2).collect();
    format!("{} .. {} characters left out .. {}", plain(&head), chars - MOST, plain(&tail))
}
