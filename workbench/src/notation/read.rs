//! Sheets, pieces and graphs from their bytes, record by record. Only what cannot be read at all stops
//! the reading; the limits are the library's to ask about.

use super::span::Span;
use super::tree::{Case, Form, Graph, Kind, Node, Pattern, Piece, Rule, Sheet, Term, What};
use std::error::Error;
use std::fmt;

/// No compound is read below so many others.
pub const DEEPEST: usize = 64;

/// What cannot be read in some bytes, and where.
#[derive(Clone, Debug, PartialEq, Eq)]
pub struct Unread {
    /// The offset at which the record that cannot be read begins.
    pub at: usize,
    pub expected: &'static str,
}

impl fmt::Display for Unread {
    fn fmt(&self, to: &mut fmt::Formatter) -> fmt::Result {
        write!(to, "byte {}: expected {}", self.at, self.expected)
    }
}

impl Error for Unread {}

/// Bytes and how far they are read.
struct Reader<'a> {
    bytes: &'a [u8],
    at: usize,
    /// Whether number cases have a gauge; in graphs from before gauges they have none.
    gauges: bool,
}

impl<'a> Reader<'a> {
    fn new(bytes: &'a [u8]) -> Reader<'a> {
        Reader { bytes, at: 0, gauges: true }
    }

    /// The next so many bytes, if there are as many.
    fn take<const N: usize>(&mut self) -> Option<[u8; N]> {
        let taken = self.bytes.get(self.at..)?.first_chunk::<N>()?;
        self.at += N;
        Some(*taken)
    }

    fn wide(&mut self) -> Option<u16> {
        self.take().map(u16::from_be_bytes)
    }

    fn byte(&mut self) -> Option<u8> {
        self.take().map(|[byte]| byte)
    }

    /// Reads a record by a function; where it cannot, the reading stops at the record's start.
    fn record<T>(
        &mut self,
        expected: &'static str,
        read: impl FnOnce(&mut Self) -> Option<T>,
    ) -> Result<(T, Span), Unread> {
        let at = self.at;
        match read(self) {
            Some(value) => Ok((value, Span::new(at, self.at))),
            None => Err(Unread { at, expected }),
        }
    }

    /// A header: its kind and so many bytes.
    fn head<const N: usize>(&mut self, kind: u8, expected: &'static str) -> Result<([u8; N], Span), Unread> {
        self.record(expected, |from| from.byte().filter(|found| *found == kind).and_then(|_| from.take()))
    }

    /// That no bytes are left.
    fn end(&self) -> Result<(), Unread> {
        match self.at == self.bytes.len() {
            true => Ok(()),
            false => Err(Unread { at: self.at, expected: "no further bytes" }),
        }
    }

    /// The form of a pattern, and the number of its arguments.
    fn form(&mut self) -> Option<(Form, u8)> {
        let form = match self.byte()? {
            0x20 => Form::Anything,
            0x21 => Form::Symbol(self.wide()?),
            0x22 => Form::Range(self.wide()?, self.wide()?),
            0x23 => return Some((Form::Compound(self.wide()?, Vec::new()), self.byte()?)),
            0x24 => Form::Variable(self.byte()?),
            0x25 => Form::Ranged(self.byte()?, self.wide()?, self.wide()?),
            0x26 => Form::Series(self.wide()?, self.wide()?),
            0x27 => Form::Gauged(self.byte()?, self.wide()?, self.wide()?),
            _ => return None,
        };
        Some((form, 0))
    }

    fn pattern(&mut self, depth: usize) -> Result<Pattern, Unread> {
        let ((mut form, arity), at) = self.record("a whole record of kinds 20 to 27", Reader::form)?;
        if let Form::Compound(_, arguments) = &mut form {
            self.shallow(depth, at)?;
            for _ in 0..arity {
                arguments.push(self.pattern(depth + 1)?);
            }
        }
        Ok(Pattern { at, form })
    }

    /// What a term is, and the number of its arguments.
    fn what(&mut self) -> Option<(What, u8)> {
        let what = match self.byte()? {
            0x30 => What::Unknown,
            0x31 => What::Symbol(self.wide()?),
            0x32 => What::Number(self.wide()?),
            0x33 => return Some((What::Compound(self.wide()?, Vec::new()), self.byte()?)),
            0x34 => What::Between(self.wide()?, self.wide()?),
            0x35 => What::Never,
            0x36 => What::Gauged(self.byte()?, self.wide()?),
            _ => return None,
        };
        Some((what, 0))
    }

    fn term(&mut self, depth: usize) -> Result<Term, Unread> {
        let ((mut what, arity), at) = self.record("a whole record of kinds 30 to 36", Reader::what)?;
        if let What::Compound(_, arguments) = &mut what {
            self.shallow(depth, at)?;
            for _ in 0..arity {
                arguments.push(self.term(depth + 1)?);
            }
        }
        Ok(Term { at, what })
    }

    fn shallow(&self, depth: usize, at: Span) -> Result<(), Unread> {
        match depth < DEEPEST {
            true => Ok(()),
            false => Err(Unread { at: at.start, expected: "fewer compounds inside one another" }),
        }
    }

    fn piece(&mut self) -> Result<Piece, Unread> {
        let ([arity], head) = self.head(0x11, "a whole 11 record")?;
        let terms = (0..arity).map(|_| self.term(1)).collect::<Result<_, _>>()?;
        Ok(Piece { at: Span::new(head.start, self.at), terms })
    }

    fn case(&mut self) -> Option<(Case, u16)> {
        let case = match self.byte()? {
            0x44 => Case::Symbols(self.wide()?, self.wide()?),
            0x45 => Case::Compound(self.wide()?, self.byte()?),
            0x46 if self.gauges => Case::Numbers(self.byte()?, self.wide()?, self.wide()?),
            0x46 => Case::Numbers(0, self.wide()?, self.wide()?),
            _ => return None,
        };
        Some((case, self.wide()?))
    }

    fn kind(&mut self) -> Option<Kind> {
        Some(match self.byte()? {
            0x40 => Kind::Fail,
            0x41 => Kind::Suspend,
            0x42 => Kind::Execute(self.byte()?),
            0x43 => {
                let (place, count) = (self.wide()?, self.wide()?);
                let (neither, unknown) = (self.wide()?, self.wide()?);
                let cases = (0..count).map(|_| self.case()).collect::<Option<_>>()?;
                Kind::Switch { place, neither, unknown, cases }
            }
            0x47 => Kind::Pair { p: self.wide()?, q: self.wide()?, no: self.wide()?, other: self.wide()? },
            _ => return None,
        })
    }
}

impl Sheet {
    /// The sheet that these bytes spell.
    pub fn read(bytes: &[u8]) -> Result<Sheet, Unread> {
        let mut from = Reader::new(bytes);
        let ([arity, count], head) = from.head(0x10, "a whole 10 record")?;
        let mut rules = Vec::with_capacity(usize::from(count));
        for _ in 0..count {
            let start = from.at;
            let patterns = (0..arity).map(|_| from.pattern(1)).collect::<Result<_, _>>()?;
            rules.push(Rule { at: Span::new(start, from.at), patterns });
        }
        from.end()?;
        Ok(Sheet { arity, head, rules })
    }
}

impl Piece {
    /// The piece that these bytes spell.
    pub fn read(bytes: &[u8]) -> Result<Piece, Unread> {
        let mut from = Reader::new(bytes);
        let piece = from.piece()?;
        from.end()?;
        Ok(piece)
    }

    /// How many of these bytes the piece at their start takes.
    pub fn length(bytes: &[u8]) -> Result<usize, Unread> {
        Reader::new(bytes).piece().map(|piece| piece.at.end)
    }
}

impl Graph {
    /// The graph that these bytes spell.
    pub fn read(bytes: &[u8]) -> Result<Graph, Unread> {
        Graph::read_from(Reader::new(bytes))
    }

    /// The graph that these bytes spell, if they are from before gauges: all its number cases are of gauge 0.
    pub fn read_older(bytes: &[u8]) -> Result<Graph, Unread> {
        Graph::read_from(Reader { gauges: false, ..Reader::new(bytes) })
    }

    fn read_from(mut from: Reader) -> Result<Graph, Unread> {
        let ([arity, rules, high, low], head) = from.head(0x12, "a whole 12 record")?;
        let mut nodes = Vec::new();
        for _ in 0..u16::from_be_bytes([high, low]) {
            let (kind, at) =
                from.record("a whole record of kinds 40 to 43 or 47, with its cases", Reader::kind)?;
            nodes.push(Node { at, kind });
        }
        from.end()?;
        Ok(Graph { arity, rules, head, nodes })
    }
}
