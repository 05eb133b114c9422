//! Reading orders from text.

use super::names::Names;
use super::order::{Line, Order};
use super::parse_place::one_of_all;
use super::parser::Parser;
use super::places;
use super::span::Fault;

/// The order that a text spells.
///
/// ```
/// use voltunnis_workbench::notation::parse_order;
///
/// let order = parse_order("order\nargument 2\nrest\nargument 1\n").unwrap();
/// let places = order.places();
/// assert_eq!((places[0], places[85], places[679]), (85, 170, 84));
/// ```
pub fn parse_order(text: &str) -> Result<Order, Fault> {
    let mut order = Order { lines: Vec::new() };
    let mut parser = Parser::new(text, &Names::default())?;
    let help = "begin with `order`, then write places in the order in which they are asked, one a line";
    parser.headed("order", "an order's head", help, |parser| line(parser, &mut order))?;
    Ok(order)
}

/// One line: a place, or the rest.
fn line(parser: &mut Parser, order: &mut Order) -> Result<(), Fault> {
    let (line, at) = match parser.accept_word("rest") {
        true => (Line::Rest, parser.last()),
        false => {
            let (place, at) = one_of_all(parser, "`argument`, `place` or `rest`")?;
            (Line::Place(place), at)
        }
    };
    if let Some((_, known)) = order.lines.iter().find(|(known, _)| *known == line) {
        let words = match line {
            Line::Place(place) => places::words(place),
            Line::Rest => "the rest".into(),
        };
        return Err(parser.twice(at, &words, *known));
    }
    order.lines.push((line, at));
    Ok(())
}
