//! Records: one kind byte and a body whose length the kind fixes, wide fields high byte first.

/// The bytes not read yet.
#[derive(Clone, Copy)]
pub struct Reader<'a> {
    rest: &'a [u8],
}

/// A pattern's record. A series takes the symbols with an id from low to high, a range the numbers on gauge 0, a gauged one
/// those on the gauge that it names.
#[derive(Clone, Copy)]
pub enum PatternRecord {
    Anything,
    Symbol(u16),
    Range { low: u16, high: u16 },
    Compound { id: u16, arity: u8 },
    Variable(u8),
    RangedVariable { number: u8, low: u16, high: u16 },
    Series { low: u16, high: u16 },
    Gauged { gauge: u8, low: u16, high: u16 },
}

/// A term's record; a compound's arguments follow as records of their own.
#[derive(Clone, Copy, Debug, PartialEq, Eq)]
pub enum TermRecord {
    Unknown,
    Symbol(u16),
    Number(u16),
    Compound {
        id: u16,
        arity: u8,
    },
    Span {
        low: u16,
        high: u16,
    },
    /// A reading that will never come.
    Never,
    /// A number on a named gauge; one of gauge 0 is the number.
    Gauged {
        gauge: u8,
        value: u16,
    },
}

/// A wide field.
pub fn wide(high: u8, low: u8) -> u16 {
    u16::from_be_bytes([high, low])
}

impl<'a> Reader<'a> {
    pub fn new(bytes: &'a [u8]) -> Self {
        Reader { rest: bytes }
    }

    pub fn left(&self) -> usize {
        self.rest.len()
    }

    /// The bytes that are left.
    pub fn rest(&self) -> &'a [u8] {
        self.rest
    }

    /// The next bytes, if there are so many.
    pub fn take<const N: usize>(&mut self) -> Option<[u8; N]> {
        let (first, rest) = self.rest.split_first_chunk::<N>()?;
        self.rest = rest;
        Some(*first)
    }

    /// The body of the record that comes next, if it is whole and of this kind.
    pub fn body_of<const N: usize>(&mut self, kind: u8) -> Option<[u8; N]> {
        let [first] = self.take()?;
        if first != kind {
            return None;
        }
        self.take()
    }

    /// The pattern's record that comes next, if it is whole and of kinds 20 to 27.
    #[inline]
    pub fn pattern(&mut self) -> Option<PatternRecord> {
        let [kind] = self.take()?;
        Some(match kind {
            0x20 => PatternRecord::Anything,
            0x21 => {
                let [a, b] = self.take()?;
                PatternRecord::Symbol(wide(a, b))
            }
            0x22 => {
                let [a, b, c, d] = self.take()?;
                PatternRecord::Range { low: wide(a, b), high: wide(c, d) }
            }
            0x23 => {
                let [a, b, arity] = self.take()?;
                PatternRecord::Compound { id: wide(a, b), arity }
            }
            0x24 => {
                let [number] = self.take()?;
                PatternRecord::Variable(number)
            }
            0x25 => {
                let [number, a, b, c, d] = self.take()?;
                PatternRecord::RangedVariable { number, low: wide(a, b), high: wide(c, d) }
            }
            0x26 => {
                let [a, b, c, d] = self.take()?;
                PatternRecord::Series { low: wide(a, b), high: wide(c, d) }
            }
            0x27 => {
                let [gauge, a, b, c, d] = self.take()?;
                PatternRecord::Gauged { gauge, low: wide(a, b), high: wide(c, d) }
            }
            _ => return None,
        })
    }

    /// The term's record that comes next, if it is whole and of kinds 30 to 36.
    #[inline]
    pub fn term(&mut self) -> Option<TermRecord> {
        let [kind] = self.take()?;
        Some(match kind {
            0x30 => TermRecord::Unknown,
            0x31 => {
                let [a, b] = self.take()?;
                TermRecord::Symbol(wide(a, b))
            }
            0x32 => {
                let [a, b] = self.take()?;
                TermRecord::Number(wide(a, b))
            }
            0x33 => {
                let [a, b, arity] = self.take()?;
                TermRecord::Compound { id: wide(a, b), arity }
            }
            0x34 => {
                let [a, b, c, d] = self.take()?;
                TermRecord::Span { low: wide(a, b), high: wide(c, d) }
            }
            0x35 => TermRecord::Never,
            0x36 => {
                let [gauge, a, b] = self.take()?;
                TermRecord::Gauged { gauge, value: wide(a, b) }
            }
            _ => return None,
        })
    }
}
