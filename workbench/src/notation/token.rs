//! The words and marks of a text.
//!
//! A line ends where it does on the page, but inside parentheses it goes on. `--` begins a comment.

use super::span::{Fault, Span};

/// A word or mark.
#[derive(Clone, Debug, PartialEq, Eq)]
pub enum Token {
    /// A word that begins with a small letter.
    Word(String),
    /// A word that begins with a capital.
    Variable(String),
    Number(u16),
    /// `#17`
    Id(u16),
    Mark(&'static str),
    LineEnd,
    End,
    /// What is none of these.
    Wrong(Fault),
}

/// All marks, the longer first where one begins another.
const MARKS: [&str; 14] = ["->", "..", "(", ")", ",", ":", "=", "?", "!", "_", "/", ".", "#", "@"];

impl Token {
    /// The token as an error message names it.
    pub fn describe(&self) -> String {
        match self {
            Token::Word(word) | Token::Variable(word) => format!("`{word}`"),
            Token::Number(number) => format!("`{number}`"),
            Token::Id(id) => format!("`#{id}`"),
            Token::Mark(mark) => format!("`{mark}`"),
            Token::LineEnd => "the end of the line".into(),
            Token::End => "the end of the text".into(),
            Token::Wrong(fault) => fault.message.clone(),
        }
    }
}

struct Lexer<'a> {
    text: &'a str,
    at: usize,
    /// How many parentheses are open.
    open: usize,
    tokens: Vec<(Token, Span)>,
}

/// The tokens of a text, each with its part of the text. The last is the end.
pub fn tokens(text: &str) -> Vec<(Token, Span)> {
    let mut lexer = Lexer { text, at: 0, open: 0, tokens: Vec::new() };
    while lexer.at < text.len() {
        lexer.step();
    }
    let end = Span::new(text.len(), text.len());
    lexer.tokens.push((Token::LineEnd, end));
    lexer.tokens.push((Token::End, end));
    lexer.tokens
}

impl Lexer<'_> {
    fn rest(&self) -> &str {
        &self.text[self.at..]
    }

    /// The length of the longest start of the rest whose characters are all so.
    fn run(&self, is: impl Fn(char) -> bool) -> usize {
        let rest = self.rest();
        rest.find(|c| !is(c)).unwrap_or(rest.len())
    }

    fn push(&mut self, token: Token, length: usize) {
        let span = Span::new(self.at, self.at + length);
        self.at += length;
        self.tokens.push((token, span));
    }

    /// Takes what comes next: a space, a comment or a token.
    fn step(&mut self) {
        let Some(first) = self.rest().chars().next() else { return };
        if self.rest().starts_with("--") {
            self.at += self.run(|c| c != '\n');
        } else if first == '\n' {
            match self.open {
                0 => self.push(Token::LineEnd, 1),
                _ => self.at += 1,
            }
        } else if first.is_whitespace() || (first == '\u{feff}' && self.at == 0) {
            self.at += first.len_utf8();
        } else if first.is_ascii_digit() {
            self.number();
        } else if first.is_alphabetic() {
            self.word(first);
        } else {
            self.mark(first);
        }
    }

    fn number(&mut self) {
        let length = self.run(|c| c.is_ascii_digit());
        let token = match self.rest()[..length].parse() {
            Ok(number) => Token::Number(number),
            Err(_) => self.wrong(length, "expected a number from 0 to 65535"),
        };
        self.push(token, length);
    }

    fn word(&mut self, first: char) {
        let length = self.run(|c| c.is_alphanumeric() || c == '_');
        let word = self.rest()[..length].to_string();
        self.push(if first.is_uppercase() { Token::Variable(word) } else { Token::Word(word) }, length);
    }

    fn mark(&mut self, first: char) {
        let found = MARKS.into_iter().find(|mark| self.rest().starts_with(mark));
        match found {
            Some("#") => self.id(),
            Some("_") if self.run(|c| c == '_' || c.is_alphanumeric()) > 1 => {
                let length = self.run(|c| c == '_' || c.is_alphanumeric());
                let wrong = self.wrong(length, "expected `_` alone, a small letter or a capital first");
                self.push(wrong, length);
            }
            Some(mark) => {
                match mark {
                    "(" => self.open += 1,
                    ")" => self.open = self.open.saturating_sub(1),
                    _ => {}
                }
                self.push(Token::Mark(mark), mark.len());
            }
            None => {
                let shown =
                    if first.is_control() { first.escape_default().to_string() } else { first.into() };
                let span = Span::new(self.at, self.at + first.len_utf8());
                self.push(Token::Wrong(Fault::new(span, format!("unexpected `{shown}`"))), first.len_utf8());
            }
        }
    }

    /// An id itself: `#` and its number.
    fn id(&mut self) {
        self.at += 1;
        let length = self.run(|c| c.is_ascii_digit());
        let parsed = self.rest()[..length].parse();
        self.at -= 1;
        let token = match parsed {
            Ok(id) => Token::Id(id),
            Err(_) => self.wrong(length + 1, "expected an id from #0 to #65535"),
        };
        self.push(token, length + 1);
    }

    /// A token for what is found in the stead of what was expected.
    fn wrong(&self, length: usize, expected: &str) -> Token {
        let found = &self.rest()[..length];
        let span = Span::new(self.at, self.at + length);
        Token::Wrong(Fault::new(span, format!("{expected}, found `{found}`")))
    }
}
