//! Places from text.

use super::parser::Parser;
use super::places::{self, PLACES};
use super::span::{Fault, Span};

/// A place in words, or by its number: `argument 1, part 3.2`, `place 43`.
pub fn place(parser: &mut Parser, expected: &str) -> Result<u16, Fault> {
    let start = parser.span();
    if parser.accept_word("place") {
        return parser.number("a place's number");
    }
    if !parser.accept_word("argument") {
        return Err(parser.expected(expected));
    }
    let mut path = vec![parser.byte("an argument from 1 to 8")?];
    if parser.accept(",") {
        if !parser.accept_word("part") {
            return Err(parser.expected("`part`"));
        }
        path.push(parser.byte("a part from 1 to 4")?);
        while parser.accept(".") {
            path.push(parser.byte("a part from 1 to 4")?);
        }
    }
    places::place(&path).ok_or_else(|| {
        let found = &parser.text[start.start..parser.last().end];
        let expected = "expected an argument from 1 to 8 and up to 3 parts from 1 to 4";
        Fault::new(start.to(parser.last()), format!("{expected}, found `{found}`"))
    })
}

/// One of all places, with the part of the text that it takes.
pub fn one_of_all(parser: &mut Parser, expected: &str) -> Result<(u16, Span), Fault> {
    let start = parser.span();
    let place = place(parser, expected)?;
    let at = start.to(parser.last());
    match place < PLACES {
        true => Ok((place, at)),
        false => {
            let found = &parser.text[at.start..at.end];
            Err(Fault::new(at, format!("expected a place from 0 to 679, found `{found}`")))
        }
    }
}
