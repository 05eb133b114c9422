//! Reading orders: the lines in which people write them, and the table of all places that they spell.

use super::places::{self, PLACES};
use super::read::Unread;
use super::span::Span;

/// A line of an order.
#[derive(Clone, Copy, Debug, PartialEq, Eq)]
pub enum Line {
    /// A place, with all below it that no line names.
    Place(u16),
    /// All arguments that no line names, ascending, each with all below it that no line names.
    Rest,
}

/// A reading order as it is written, each line with the part of the source that it takes. Without a line
/// for the rest, the rest comes last.
#[derive(Clone, Debug)]
pub struct Order {
    pub lines: Vec<(Line, Span)>,
}

/// An order while its table is made.
struct Laying {
    /// The places that lines name.
    named: Vec<bool>,
    down: Vec<bool>,
    places: Vec<u16>,
}

impl Laying {
    /// Puts a place down, unless it is already.
    fn put(&mut self, place: u16) {
        if !std::mem::replace(&mut self.down[usize::from(place)], true) {
            self.places.push(place);
        }
    }

    /// Puts down a place after those above it that no line names, then all below it that no line names.
    fn whole(&mut self, place: u16) {
        let above = std::iter::successors(places::parent(place), |above| places::parent(*above));
        let above: Vec<u16> = above.filter(|above| !self.named[usize::from(*above)]).collect();
        above.into_iter().rev().for_each(|above| self.put(above));
        self.put(place);
        let mut next = place + 1;
        while next <= places::last_below(place) {
            if self.named[usize::from(next)] {
                next = places::last_below(next);
            } else {
                self.put(next);
            }
            next += 1;
        }
    }

    /// Puts down all arguments that no line names, each with all below it.
    fn rest(&mut self) {
        let arguments = (1..=8).filter_map(|argument| places::place(&[argument]));
        let unnamed: Vec<u16> = arguments.filter(|place| !self.named[usize::from(*place)]).collect();
        unnamed.into_iter().for_each(|place| self.whole(place));
    }
}

impl Order {
    /// The places in the order in which they are asked. A line that stands before that of its parent is
    /// asked before it, as it stands.
    pub fn places(&self) -> Vec<u16> {
        let mut named = vec![false; PLACES.into()];
        for (line, _) in &self.lines {
            if let Line::Place(place) = line {
                named[usize::from(*place)] = true;
            }
        }
        let mut laying = Laying { named, down: vec![false; PLACES.into()], places: Vec::new() };
        for (line, _) in &self.lines {
            match line {
                Line::Place(place) => laying.whole(*place),
                Line::Rest => laying.rest(),
            }
        }
        laying.rest();
        laying.places
    }

    /// The table: the places as wide fields.
    pub fn bytes(&self) -> Vec<u8> {
        self.places().into_iter().flat_map(u16::to_be_bytes).collect()
    }

    /// The order that a table spells, if it has each place once.
    pub fn read(bytes: &[u8]) -> Result<Order, Unread> {
        let mut seen = vec![false; PLACES.into()];
        for (at, two) in bytes.chunks(2).enumerate() {
            let place = two.try_into().map(u16::from_be_bytes).ok().filter(|place| *place < PLACES);
            let new = place.filter(|place| !std::mem::replace(&mut seen[usize::from(*place)], true));
            new.ok_or(Unread { at: 2 * at, expected: "a place from 0 to 679, none twice" })?;
        }
        match seen.iter().all(|seen| *seen) {
            true => Ok(Order::of(bytes)),
            false => Err(Unread { at: bytes.len(), expected: "680 places" }),
        }
    }

    /// The order that a table of all places spells, in few lines; in all, if it has a place before its
    /// parent.
    fn of(table: &[u8]) -> Order {
        let places: Vec<u16> = table.chunks(2).map(|two| u16::from_be_bytes([two[0], two[1]])).collect();
        let line = |line| (line, Span::default());
        let few = Order { lines: few(&places).into_iter().map(line).collect() };
        match few.places() == places {
            true => few,
            false => Order { lines: places.into_iter().map(|place| line(Line::Place(place))).collect() },
        }
    }

    /// The order as text.
    pub fn print(&self) -> String {
        let mut text = String::from("order\n");
        for (line, _) in &self.lines {
            text += &match line {
                Line::Place(place) => places::words(*place),
                Line::Rest => "rest".into(),
            };
            text.push('\n');
        }
        text
    }
}

/// The lines of an order: a place that does not follow its parent's line as it would unnamed has one.
fn few(places: &[u16]) -> Vec<Line> {
    let mut named: Vec<u16> = Vec::new();
    let mut line_of = vec![0; PLACES.into()];
    let mut last = 0;
    for place in places {
        let follows = places::parent(*place).is_some_and(|above| line_of[usize::from(above)] == named.len());
        if named.is_empty() || !follows || *place < last {
            named.push(*place);
        }
        line_of[usize::from(*place)] = named.len();
        last = *place;
    }
    without_rest(&named)
}

/// The lines for these places, with the longest run of ascending arguments, the last of equal ones, left
/// out as the rest. One argument is none, unless it is the last line.
fn without_rest(named: &[u16]) -> Vec<Line> {
    let is_argument = |place: u16| places::parent(place).is_none();
    let run = |from: usize| {
        let more = named[from..].windows(2).take_while(|two| two[0] < two[1] && is_argument(two[1]));
        from..from + 1 + more.count()
    };
    let runs = (0..named.len()).filter(|from| is_argument(named[*from])).map(run);
    let longest = runs.max_by_key(|run| (run.len(), run.start)).unwrap_or_default();
    let lines = |part: &[u16]| part.iter().copied().map(Line::Place).collect::<Vec<Line>>();
    match longest.end == named.len() {
        true => lines(&named[..longest.start]),
        false if longest.len() == 1 => lines(named),
        false => [lines(&named[..longest.start]), vec![Line::Rest], lines(&named[longest.end..])].concat(),
    }
}
