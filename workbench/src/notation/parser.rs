//! What the parsers of the notation have in common.

use super::names::Names;
use super::parse_names::{declares, AFTER_A_NUMBER};
use super::read::DEEPEST;
use super::span::{position, Fault, Span};
use super::token::{tokens, Token};

/// A text, how far it is parsed, and the names that hold in it.
pub struct Parser<'a> {
    pub text: &'a str,
    tokens: Vec<(Token, Span)>,
    at: usize,
    pub names: Names,
}

impl<'a> Parser<'a> {
    /// A parser of a text in which some names hold already. Names that the text declares hold in all
    /// of it.
    pub fn new(text: &'a str, names: &Names) -> Result<Parser<'a>, Fault> {
        let mut parser = Parser { text, tokens: tokens(text), at: 0, names: Names::default() };
        parser.declare()?;
        parser.names.extend(names);
        Ok(parser)
    }

    pub fn peek(&self) -> &Token {
        &self.tokens[self.at].0
    }

    /// The tokens from here to the end of the line.
    pub fn line(&self) -> impl Iterator<Item = &(Token, Span)> {
        self.tokens[self.at..].iter().take_while(|(token, _)| *token != Token::LineEnd)
    }

    /// Where the next token stands.
    pub fn span(&self) -> Span {
        self.tokens[self.at].1
    }

    /// Where the last token stood.
    pub fn last(&self) -> Span {
        self.tokens[self.at.saturating_sub(1)].1
    }

    /// Goes on to the next token, but never past the end.
    pub fn advance(&mut self) {
        self.at = (self.at + 1).min(self.tokens.len() - 1);
    }

    /// Goes back to the first token.
    pub fn restart(&mut self) {
        self.at = 0;
    }

    /// Takes a mark, if it comes next.
    pub fn accept(&mut self, mark: &'static str) -> bool {
        let found = *self.peek() == Token::Mark(mark);
        if found {
            self.advance();
        }
        found
    }

    /// Takes a word, if it comes next.
    pub fn accept_word(&mut self, word: &str) -> bool {
        let found = matches!(self.peek(), Token::Word(found) if found == word);
        if found {
            self.advance();
        }
        found
    }

    /// Takes a mark that must come next.
    pub fn expect(&mut self, mark: &'static str) -> Result<(), Fault> {
        match self.accept(mark) {
            true => Ok(()),
            false => Err(self.expected(&format!("`{mark}`"))),
        }
    }

    /// Takes a number that must come next.
    pub fn number(&mut self, what: &str) -> Result<u16, Fault> {
        let Token::Number(number) = *self.peek() else { return Err(self.expected(what)) };
        self.advance();
        Ok(number)
    }

    /// Takes a number that must come next and fit one byte.
    pub fn byte(&mut self, what: &str) -> Result<u8, Fault> {
        let at = self.span();
        let number = self.number(what)?;
        number
            .try_into()
            .map_err(|_| Fault::new(at, format!("expected {what} from 0 to 255, found `{number}`")))
    }

    /// Takes the end of a line, which must come next.
    pub fn line_end(&mut self) -> Result<(), Fault> {
        match self.peek() {
            Token::LineEnd => self.advance(),
            _ => return Err(self.expected("the end of the line")),
        }
        Ok(())
    }

    /// Skips empty lines and the names, which are declared already.
    pub fn skip(&mut self) {
        loop {
            match self.peek() {
                Token::LineEnd => self.advance(),
                Token::Word(word) if declares(word) => {
                    while *self.peek() != Token::LineEnd {
                        self.advance();
                    }
                }
                _ => return,
            }
        }
    }

    /// Takes a head of one word, and then all lines, each by this function.
    pub fn headed(
        &mut self,
        head: &str,
        expected: &str,
        help: &str,
        mut line: impl FnMut(&mut Self) -> Result<(), Fault>,
    ) -> Result<(), Fault> {
        self.skip();
        if !self.accept_word(head) {
            return Err(self.expected(expected).help(help));
        }
        self.line_end()?;
        loop {
            self.skip();
            if self.at_end() {
                return Ok(());
            }
            line(self)?;
            self.line_end()?;
        }
    }

    pub fn at_end(&self) -> bool {
        *self.peek() == Token::End
    }

    /// The fault that something else was expected here.
    pub fn expected(&self, what: &str) -> Fault {
        match self.peek() {
            Token::Wrong(fault) => fault.clone(),
            found => Fault::new(self.span(), format!("expected {what}, found {}", found.describe())),
        }
    }

    /// The fault that something stands twice, as these words say.
    pub fn twice(&self, at: Span, words: &str, known: Span) -> Fault {
        let line = position(self.text, known.start).line;
        Fault::new(at, format!("{words} stands twice")).help(format!("line {line} has it"))
    }

    /// Takes a list in parentheses, parted by commas, each item by this function.
    pub fn list<T>(
        &mut self,
        depth: usize,
        item: impl Fn(&mut Self) -> Result<T, Fault>,
    ) -> Result<Vec<T>, Fault> {
        let open = self.span();
        if depth > DEEPEST {
            return Err(Fault::new(
                open,
                format!("expected at most {DEEPEST} parentheses inside one another"),
            ));
        }
        self.expect("(")?;
        let mut items = Vec::new();
        if self.accept(")") {
            return Ok(items);
        }
        loop {
            items.push(item(self)?);
            if items.len() > 255 {
                return Err(Fault::new(open.to(self.last()), "expected at most 255 between two parentheses"));
            }
            if self.accept(")") {
                return Ok(items);
            }
            if !self.accept(",") {
                return Err(self.unclosed(open));
            }
        }
    }

    /// The fault that a list goes on with neither a comma nor its end.
    fn unclosed(&self, open: Span) -> Fault {
        let fault = self.expected("`,` or `)`");
        if *self.peek() == Token::Mark("@") {
            return fault.help(AFTER_A_NUMBER);
        }
        let (from, here) = (position(self.text, open.start), position(self.text, self.span().start));
        match from.line == here.line && !self.at_end() {
            true => fault,
            false => {
                fault.help(format!("the `(` of line {}, column {} is still open", from.line, from.column))
            }
        }
    }
}
