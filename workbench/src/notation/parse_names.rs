//! Names in a text: the lines that declare them, and ids and gauges that are named.

use super::parser::Parser;
use super::span::{position, Fault};
use super::token::Token;

/// The words with which a line begins that declares a name: of an id, of a gauge.
const NAME: &str = "name";
const GAUGE: &str = "gauge";

/// Whether a line that begins with this word declares a name.
pub fn declares(word: &str) -> bool {
    [NAME, GAUGE].contains(&word)
}

/// Where a gauge may stand, for those who put it elsewhere.
pub const AFTER_A_NUMBER: &str = "a gauge stands after a number or a range, as `180@roller`";

impl Parser<'_> {
    /// Declares the names of all lines that begin with `name` or `gauge`.
    pub fn declare(&mut self) -> Result<(), Fault> {
        let mut line_begins = true;
        while !self.at_end() {
            let words = if line_begins { &[NAME, GAUGE][..] } else { &[] };
            if let Some(word) = words.iter().find(|word| self.accept_word(word)) {
                self.declaration(word)?;
            }
            line_begins = *self.peek() == Token::LineEnd;
            self.advance();
        }
        self.restart();
        Ok(())
    }

    /// One declaration, after its first word: `silver = 17`.
    fn declaration(&mut self, word: &str) -> Result<(), Fault> {
        let at = self.span();
        let Token::Word(name) = self.peek().clone() else {
            let fault = self.expected("a name in small letters");
            return Err(match self.peek() {
                Token::Variable(_) => fault.help("words that begin with a capital are variables"),
                _ => fault,
            });
        };
        self.advance();
        self.expect("=")?;
        let number = match (word, self.peek()) {
            (NAME, Token::Number(id) | Token::Id(id)) => *id,
            (NAME, _) => return Err(self.expected("an id from 0 to 65535")),
            (_, Token::Number(gauge @ 0..=255)) => *gauge,
            _ => return Err(self.expected("a gauge from 0 to 255")),
        };
        self.advance();
        if *self.peek() != Token::LineEnd {
            return Err(self.expected("the end of the line"));
        }
        let declared = if word == NAME { &mut self.names.ids } else { &mut self.names.gauges };
        if let Some(known) = declared.get(&name) {
            let line = position(self.text, known.at.start).line;
            let fault = Fault::new(at, format!("the {word} `{name}` is declared twice"));
            return Err(fault.help(format!("line {line} says `{word} {name} = {}`", known.number)));
        }
        declared.add(name, number, at);
        Ok(())
    }

    /// Takes the id of a symbol or compound that must come next, by name or by itself.
    pub fn id(&mut self, what: &str) -> Result<u16, Fault> {
        let id = match self.peek() {
            Token::Id(id) => *id,
            Token::Word(name) => match self.names.ids.get(name) {
                Some(known) => known.number,
                None => return Err(self.undeclared_id(name)),
            },
            _ => return Err(self.expected(what)),
        };
        self.advance();
        Ok(id)
    }

    fn undeclared_id(&self, name: &str) -> Fault {
        let fault = Fault::new(self.span(), format!("expected a declared name, found `{name}`"));
        if self.names.gauges.get(name).is_some() {
            return fault.help(format!("`{name}` is a gauge, which stands after a number, as `180@{name}`"));
        }
        match self.names.ids.closest(name) {
            Some(close) => fault.help(format!("did you mean `{close}`?")),
            None => fault.help(format!(
                "declare it on a line of its own, `name {name} = {}`, or write the id itself, as `#17`",
                self.names.ids.free(u16::MAX)
            )),
        }
    }

    /// Takes a gauge, if one comes next: `@`, then its name or its number.
    pub fn gauge(&mut self) -> Result<Option<u8>, Fault> {
        if !self.accept("@") {
            return Ok(None);
        }
        let number = match self.peek() {
            Token::Number(number) => *number,
            Token::Word(name) => match self.names.gauges.get(name) {
                Some(known) => known.number,
                None => return Err(self.undeclared_gauge(name)),
            },
            _ => return Err(self.unnamed_gauge()),
        };
        let gauge = u8::try_from(number).map_err(|_| self.unnamed_gauge())?;
        self.advance();
        Ok(Some(gauge))
    }

    /// The fault that neither a gauge's name nor its number follows an `@`.
    fn unnamed_gauge(&self) -> Fault {
        self.expected("a gauge's name, or its number from 0 to 255")
    }

    fn undeclared_gauge(&self, name: &str) -> Fault {
        let fault = Fault::new(self.span(), format!("expected a declared gauge, found `{name}`"));
        match self.names.gauges.closest(name) {
            Some(close) => fault.help(format!("did you mean `{close}`?")),
            None => {
                let free = self.names.gauges.free(u16::from(u8::MAX));
                let own = format!("`gauge {name} = {free}`");
                fault.help(format!(
                    "declare it on a line of its own, {own}, or write its number, as `180@{free}`"
                ))
            }
        }
    }
}
