//! Pieces from text.

use super::names::Names;
use super::parser::Parser;
use super::span::Fault;
use super::token::Token;
use super::tree::{Piece, Term, What};

/// What a term may be.
const TERM: &str = "a term: `?`, `!`, a name, a number or a span";

/// That a reading which will never come has no other mark beside it.
const ALONE: &str = "a reading that never comes is `!` alone";

/// What a number that is not known yet is.
const LATE: &str = "a number not known yet is `?`, one between two numbers `231..239?`";

/// That a gauge may stand after a number, but not after a span.
const NO_GAUGE: &str = "a span is on gauge 0; on another gauge a number not known yet is `?`";

/// What follows a term.
const FOLLOWS: &str = "`,` or `)`";

/// The piece that a text spells, by these names.
///
/// ```
/// use voltunnis_workbench::notation::{parse_piece, Names};
///
/// let piece = parse_piece("(#17, ?, 180, 231..239?, !, 180@3)", &Names::default()).unwrap();
/// assert_eq!(piece.bytes(), [
///     0x11, 6, 0x31, 0, 17, 0x30, 0x32, 0, 180, 0x34, 0, 231, 0, 239, 0x35, 0x36, 3, 0, 180,
/// ]);
/// ```
pub fn parse_piece(text: &str, names: &Names) -> Result<Piece, Fault> {
    let mut parser = Parser::new(text, names)?;
    parser.skip();
    let piece = piece(&mut parser)?;
    parser.skip();
    match parser.at_end() {
        true => Ok(piece),
        false => Err(parser.expected("one piece and no more")),
    }
}

/// The pieces that a text spells, one a line, by these names and its own.
///
/// ```
/// use voltunnis_workbench::notation::{parse_pieces, Names};
///
/// let (pieces, names) = parse_pieces("name silver = 17\n(silver)\n(?)\n", &Names::default()).unwrap();
/// assert_eq!(pieces.len(), 2);
/// assert_eq!(names.show(17), "silver");
/// ```
pub fn parse_pieces(text: &str, names: &Names) -> Result<(Vec<Piece>, Names), Fault> {
    let mut parser = Parser::new(text, names)?;
    let mut pieces = Vec::new();
    loop {
        parser.skip();
        if parser.at_end() {
            return Ok((pieces, parser.names));
        }
        pieces.push(piece(&mut parser)?);
        parser.line_end()?;
    }
}

/// One piece: its terms in parentheses.
fn piece(parser: &mut Parser) -> Result<Piece, Fault> {
    let start = parser.span();
    if *parser.peek() != Token::Mark("(") {
        return Err(parser.expected("a piece such as `(?, 180)`"));
    }
    let terms = parser.list(1, |parser| term(parser, 1))?;
    Ok(Piece { at: start.to(parser.last()), terms })
}

/// A number, on the gauge that is named after it, or a span: `180`, `180@roller`, `231..239?`.
fn number(parser: &mut Parser) -> Result<What, Fault> {
    let value = parser.number("a number")?;
    let gauge = parser.gauge()?;
    match (parser.peek(), gauge) {
        (Token::Mark(".."), None) => {
            parser.advance();
            span(parser, value)
        }
        (Token::Mark(".."), Some(_)) => Err(parser.expected(FOLLOWS).help(NO_GAUGE)),
        (Token::Mark("?"), _) => Err(parser.expected(FOLLOWS).help(LATE)),
        (_, None) => Ok(What::Number(value)),
        (_, Some(gauge)) => Ok(What::Gauged(gauge, value)),
    }
}

/// A span, after its `..`, which is on gauge 0.
fn span(parser: &mut Parser, low: u16) -> Result<What, Fault> {
    let high = parser.number("the end of the span")?;
    if parser.accept("?") {
        return match parser.peek() {
            Token::Mark("@") => Err(parser.expected(FOLLOWS).help(NO_GAUGE)),
            _ => Ok(What::Between(low, high)),
        };
    }
    let fault = parser.expected("`?`");
    Err(match parser.peek() {
        Token::Mark("!") => fault.help(ALONE),
        Token::Mark("@") => fault.help(NO_GAUGE),
        _ => fault.help(format!(
            "a number between the two, not known yet, is `{low}..{high}?`; ranges stand in sheets"
        )),
    })
}

/// A term that begins with an id: a symbol, or a compound and its arguments.
fn by_id(parser: &mut Parser, depth: usize) -> Result<What, Fault> {
    let id = parser.id("a term")?;
    match parser.peek() {
        Token::Mark("(") => {
            let arguments = parser.list(depth + 1, |parser| term(parser, depth + 1))?;
            Ok(What::Compound(id, arguments))
        }
        Token::Mark("..") => {
            let help = "a series of symbols stands in a sheet; in a piece a symbol not known yet is `?`";
            Err(parser.expected(FOLLOWS).help(help))
        }
        _ => Ok(What::Symbol(id)),
    }
}

/// One term.
fn term(parser: &mut Parser, depth: usize) -> Result<Term, Fault> {
    let start = parser.span();
    let what = match parser.peek() {
        Token::Mark("?") => {
            parser.advance();
            What::Unknown
        }
        Token::Mark("!") => {
            parser.advance();
            What::Never
        }
        Token::Number(_) => number(parser)?,
        Token::Id(_) | Token::Word(_) => by_id(parser, depth)?,
        Token::Mark("_") | Token::Variable(_) => {
            let help =
                "`_` and variables stand in sheets; in a piece `?` is a reading not taken yet, `!` one that \
                        never comes";
            return Err(parser.expected(TERM).help(help));
        }
        _ => return Err(parser.expected(TERM)),
    };
    match (&what, parser.peek()) {
        (_, Token::Mark("!")) | (What::Never, Token::Mark("?" | "(" | ".." | "@")) => {
            Err(parser.expected(FOLLOWS).help(ALONE))
        }
        _ => Ok(Term { at: start.to(parser.last()), what }),
    }
}
