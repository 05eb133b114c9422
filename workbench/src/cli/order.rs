//! Reading orders that the library accepts, from text or bytes, or from a track drawing.

use super::args::{Args, Opt};
use super::refused;
use super::source::{About, Content, Source};
use super::stop::Stop;
use super::track::track;
use crate::locate::{self, Where};
use crate::notation::{parse_order, places, Line, Order, Span};
use voltunnis::{check_order, track_order};

/// `--order`
pub const ORDER: Opt = Opt {
    long: "order",
    short: None,
    value: Some("FILE"),
    help: "the reading order in which the graph asks, as text or as a table, or a track drawing",
};

/// An accepted reading order.
pub struct OrderInput {
    pub order: Order,
    /// Its table.
    pub bytes: Vec<u8>,
}

impl OrderInput {
    /// Reads the order that a command is given, if it is.
    pub fn given(args: &Args) -> Result<Option<OrderInput>, Stop> {
        let read = |path| {
            let source = Source::load(path, args)?;
            match source.about() {
                About::Track => OrderInput::along(&source),
                _ => OrderInput::of(&source),
            }
        };
        args.value(ORDER).map(read).transpose()
    }

    /// The order that the library writes for a track drawing.
    pub fn along(source: &Source) -> Result<OrderInput, Stop> {
        let bytes = track_order(&track(source)?.bytes())
            .map_err(|refusal| refused::whole(&source.name, refusal, ""))?;
        let order = Order::read(&bytes).map_err(|_| Stop::internal("a written order that cannot be read"))?;
        Ok(OrderInput { order, bytes })
    }

    /// An order that the library must accept.
    pub fn of(source: &Source) -> Result<OrderInput, Stop> {
        let (order, bytes) = match &source.content {
            Content::Text(text) => {
                let order = parse_order(text).map_err(|fault| refused::fault(&source.name, text, &fault))?;
                let bytes = order.bytes();
                (Some(order), bytes)
            }
            Content::Bytes(bytes) => (Order::read(bytes).ok(), bytes.clone()),
        };
        check_order(&bytes).map_err(|refusal| {
            let place = locate::in_order(&bytes, refusal);
            refused::in_source(source, &bytes, refusal, place, |place| part(order.as_ref(), &bytes, place))
        })?;
        let order = order.ok_or_else(|| Stop::internal("an accepted order that cannot be read"))?;
        Ok(OrderInput { order, bytes })
    }

    /// Where a place stands in the order.
    pub fn turn(&self, place: u16) -> usize {
        self.bytes.chunks(2).position(|two| two == place.to_be_bytes()).unwrap_or(usize::MAX)
    }
}

/// The line that is meant: the first that names the place that is refused, or one below it.
fn part(order: Option<&Order>, bytes: &[u8], place: Where) -> Span {
    let Some(lines) = order.map(|order| &order.lines) else { return Span::default() };
    let Where::Record { at, .. } = place else { return Span::default() };
    let refused = u16::from_be_bytes([bytes[at.start], bytes[at.start + 1]]);
    let below = refused..=places::last_below(refused);
    let meant = lines.iter().find(|(line, _)| matches!(line, Line::Place(place) if below.contains(place)));
    meant.map_or(Span::default(), |(_, span)| *span)
}
