//! Sheets from text.

use super::names::Names;
use super::parser::Parser;
use super::span::{Fault, Span};
use super::token::Token;
use super::tree::{Form, Pattern, Rule, Sheet};

/// What follows a pattern.
const FOLLOWS: &str = "`,` or `)`";

/// A sheet as it is written: the sheet, and the names that the text declares.
#[derive(Clone, Debug)]
pub struct SheetText {
    pub sheet: Sheet,
    pub names: Names,
}

/// The sheet that a text spells: a head, then rules.
///
/// ```
/// use voltunnis_workbench::notation::parse_sheet;
///
/// let text = "sheet 2\nname silver = 17\ngauge roller = 1\n1: (silver, 180..190)\n2: (X, X)\n\
///             3: (silver..#99, 100..180@roller)\n";
/// let written = parse_sheet(text).unwrap();
/// assert_eq!(written.sheet.bytes(), [
///     0x10, 2, 3, 0x21, 0, 17, 0x22, 0, 180, 0, 190, 0x24, 0, 0x24, 0,
///     0x26, 0, 17, 0, 99, 0x27, 1, 0, 100, 0, 180,
/// ]);
///
/// let fault = parse_sheet("sheet 1\n1: (190...200)\n").unwrap_err();
/// assert_eq!(fault.message, "expected the end of the range, found `.`");
/// ```
pub fn parse_sheet(text: &str) -> Result<SheetText, Fault> {
    let mut parser = Parser::new(text, &Names::default())?;
    parser.skip();
    let start = parser.span();
    if !parser.accept_word("sheet") {
        let fault = parser.expected("a sheet's head");
        return Err(fault.help("begin with `sheet` and the number of arguments, as `sheet 2`"));
    }
    let arity = parser.byte("the number of arguments")?;
    let head = start.to(parser.last());
    parser.line_end()?;
    let mut rules = Vec::new();
    loop {
        parser.skip();
        if parser.at_end() {
            break;
        }
        rules.push(rule(&mut parser, arity, rules.len() + 1)?);
    }
    Ok(SheetText { sheet: Sheet { arity, head, rules }, names: parser.names })
}

/// One rule: its number, then its patterns.
fn rule(parser: &mut Parser, arity: u8, number: usize) -> Result<Rule, Fault> {
    let start = parser.span();
    let found = parser.number("a rule such as `1: (X, _)`")?;
    if usize::from(found) != number {
        let fault = Fault::new(start, format!("expected rule {number}, found rule {found}"));
        return Err(fault.help("rules are numbered 1, 2, 3 and so on, as they stand"));
    }
    if number > 255 {
        return Err(Fault::new(start, "expected at most 255 rules, as many as one byte counts"));
    }
    parser.expect(":")?;
    let variables = Variables::of(parser)?;
    let open = parser.span();
    let patterns = parser.list(1, |parser| pattern(parser, &variables, 1))?;
    let at = start.to(parser.last());
    if patterns.len() != usize::from(arity) {
        let many = |count: usize| if count == 1 { "1 pattern".into() } else { format!("{count} patterns") };
        let message =
            format!("expected {}, as the head says, found {}", many(usize::from(arity)), patterns.len());
        return Err(Fault::new(open.to(at), message));
    }
    parser.line_end()?;
    Ok(Rule { at, patterns })
}

/// The variables of one rule, in the order of their first appearance, with their numbers.
struct Variables(Vec<(String, u8)>);

impl Variables {
    /// Numbers the variables of the rule that comes next. `V7` has the number 7; the others take the
    /// numbers left, from 0, in the order of their first appearance.
    fn of(parser: &Parser) -> Result<Variables, Fault> {
        let mut names: Vec<(&String, Span)> = Vec::new();
        for (token, at) in parser.line() {
            match token {
                Token::Variable(name) if !names.iter().any(|(known, _)| *known == name) => {
                    names.push((name, *at))
                }
                _ => {}
            }
        }
        let mut variables = Vec::with_capacity(names.len());
        let taken: Vec<u8> = names.iter().filter_map(|(name, _)| numbered(name)).flatten().collect();
        let mut free = (0..=u8::MAX).filter(|number| !taken.contains(number));
        for (name, at) in names {
            let number = match numbered(name) {
                Some(number) => number,
                None => free.next(),
            };
            let Some(number) = number else {
                let message = format!("expected variables V0 to V255 and no more than 256, found `{name}`");
                return Err(Fault::new(at, message));
            };
            variables.push((name.clone(), number));
        }
        Ok(Variables(variables))
    }

    fn number(&self, name: &str) -> Option<u8> {
        self.0.iter().find(|(known, _)| known == name).map(|(_, number)| *number)
    }
}

/// The number that a variable's name says, as `V7` does: none inside if it is above 255.
fn numbered(name: &str) -> Option<Option<u8>> {
    let digits = name.strip_prefix('V')?;
    let is_number = !digits.is_empty() && digits.bytes().all(|byte| byte.is_ascii_digit());
    is_number.then(|| digits.parse().ok())
}

/// One pattern.
fn pattern(parser: &mut Parser, variables: &Variables, depth: usize) -> Result<Pattern, Fault> {
    let start = parser.span();
    let form = match parser.peek().clone() {
        Token::Mark("_") => {
            parser.advance();
            Form::Anything
        }
        Token::Number(_) => match gauged_range(parser, FOLLOWS)? {
            (low, high, None) => Form::Range(low, high),
            (low, high, Some(gauge)) => Form::Gauged(gauge, low, high),
        },
        Token::Variable(name) => {
            let number = variables.number(&name).ok_or_else(|| parser.expected("a pattern"))?;
            parser.advance();
            by_variable(parser, number)?
        }
        Token::Id(_) | Token::Word(_) => by_id(parser, variables, depth)?,
        Token::Mark("?") => {
            let fault = parser.expected("a pattern");
            return Err(fault.help("`?` is an unknown reading of a piece; in a sheet `_` is anything"));
        }
        Token::Mark("!") => {
            let help = "`!` is a reading of a piece, one that never comes; in a sheet `_` is anything";
            return Err(parser.expected("a pattern").help(help));
        }
        _ => return Err(parser.expected("a pattern: `_`, a name, a series, a number, a range or a variable")),
    };
    match (&form, parser.peek()) {
        (Form::Range(..) | Form::Ranged(..) | Form::Gauged(..), Token::Mark("?")) => {
            let help = "`231..239?` is a reading of a piece; in a sheet a range is `231..239`";
            Err(parser.expected(FOLLOWS).help(help))
        }
        _ => Ok(Pattern { at: start.to(parser.last()), form }),
    }
}

/// A pattern that begins with an id: a symbol, a series of symbols, or a compound and its arguments.
fn by_id(parser: &mut Parser, variables: &Variables, depth: usize) -> Result<Form, Fault> {
    let id = parser.id("a pattern")?;
    if *parser.peek() == Token::Mark("(") {
        let arguments = parser.list(depth + 1, |parser| pattern(parser, variables, depth + 1))?;
        return Ok(Form::Compound(id, arguments));
    }
    if !parser.accept("..") {
        return Ok(Form::Symbol(id));
    }
    let high = series_end(parser)?;
    match parser.peek() {
        Token::Mark("(") => {
            Err(parser.expected(FOLLOWS).help("a series is of symbols; a compound has one id"))
        }
        _ => Ok(Form::Series(id, high)),
    }
}

/// A pattern that begins with a variable: the variable, or its range, which is on gauge 0, too.
fn by_variable(parser: &mut Parser, number: u8) -> Result<Form, Fault> {
    if !parser.accept(":") {
        return Ok(Form::Variable(number));
    }
    let (low, high) = range(parser)?;
    match parser.peek() {
        Token::Mark("@") => {
            let help =
                "a variable's range is on gauge 0; on another gauge a range stands alone, as `5..9@roller`";
            Err(parser.expected(FOLLOWS).help(help))
        }
        _ => Ok(Form::Ranged(number, low, high)),
    }
}

/// A range and the gauge that is named after it, if one is: `100..180@roller`. What may follow it is for the message.
pub fn gauged_range(parser: &mut Parser, follows: &str) -> Result<(u16, u16, Option<u8>), Fault> {
    let (low, high) = range(parser)?;
    let gauge = parser.gauge()?;
    match parser.peek() {
        Token::Mark("..") if gauge.is_some() => {
            let help = "the gauge of a range stands after its end, as `100..180@roller`";
            Err(parser.expected(follows).help(help))
        }
        _ => Ok((low, high, gauge)),
    }
}

/// A range: `low..high`, or one number.
pub fn range(parser: &mut Parser) -> Result<(u16, u16), Fault> {
    let low = parser.number("a number or a range such as `180..190`")?;
    if !parser.accept("..") {
        return Ok((low, low));
    }
    match parser.peek() {
        Token::Id(_) | Token::Word(_) => {
            let help =
                format!("a range ends with a number; a series of symbols begins with an id, as `#{low}`");
            Err(parser.expected("the end of the range").help(help))
        }
        _ => parser.number("the end of the range").map(|high| (low, high)),
    }
}

/// The end of a series, after its `..`: the last of its ids.
pub fn series_end(parser: &mut Parser) -> Result<u16, Fault> {
    match parser.peek() {
        Token::Number(number) => {
            let help = format!("a series ends with an id, as `#{number}`");
            Err(parser.expected("the end of the series").help(help))
        }
        _ => parser.id("the end of the series"),
    }
}
