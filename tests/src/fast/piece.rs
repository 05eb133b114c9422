//! A piece's questions, 12 to 17 and 32, and where its terms stand.

use super::places::{PARENT, PLACES, STEP};
use super::records::{self, Term, NEVER, UNKNOWN};
use crate::results::Refusal;

/// A piece: its bytes, for each place the offset of the term there, 0 where there is none, and whether one of its
/// readings will never come.
pub struct Piece<'a> {
    pub bytes: &'a [u8],
    pub offsets: [u16; PLACES],
    pub nevers: bool,
}

/// What `find` gives for a place that the piece lacks.
pub const LACKING: usize = 0;
/// What `find` gives for an unknown, and for a place below one.
pub const NOT_KNOWN: usize = 1;

/// Questions 12 and 13; gives the arity.
#[inline(always)]
fn header(bytes: &[u8]) -> Result<u8, Refusal> {
    if bytes.len() < 2 || bytes[0] != 0x11 {
        return Err(12);
    }
    if !(1..=8).contains(&bytes[1]) {
        return Err(13);
    }
    Ok(bytes[1])
}

/// Asks a piece's questions and notes nothing; gives its arity.
pub fn check(bytes: &[u8]) -> Result<u8, Refusal> {
    let arity = header(bytes)?;
    let used = lengths(&bytes[2..], usize::from(arity), 1)?;
    if used + 2 != bytes.len() {
        return Err(17);
    }
    Ok(arity)
}

/// How many bytes a term has.
fn length(bytes: &[u8], depth: usize) -> Result<usize, Refusal> {
    match records::term(bytes) {
        None => Err(14),
        Some(Term::Unknown | Term::Never) => Ok(1),
        Some(Term::SymbolOrNumber) => Ok(3),
        Some(Term::Gauged) => Ok(4),
        Some(Term::Compound(arity)) => {
            if depth > 3 {
                return Err(15);
            }
            if !(1..=4).contains(&arity) {
                return Err(16);
            }
            Ok(lengths(&bytes[4..], usize::from(arity), depth + 1)? + 4)
        }
        Some(Term::Span(low, high)) => {
            if low > high {
                return Err(32);
            }
            Ok(5)
        }
    }
}

/// How many bytes so many terms have.
fn lengths(bytes: &[u8], count: usize, depth: usize) -> Result<usize, Refusal> {
    let mut at = 0;
    for _ in 0..count {
        at += length(&bytes[at..], depth)?;
    }
    Ok(at)
}

impl<'a> Piece<'a> {
    #[inline(always)]
    pub fn unread(bytes: &'a [u8]) -> Self {
        Piece { bytes, offsets: [0; PLACES], nevers: false }
    }

    /// Asks the questions and notes where each term stands; gives the arity.
    pub fn read(&mut self) -> Result<u8, Refusal> {
        let (arity, used) = self.read_first()?;
        if used != self.bytes.len() {
            return Err(17);
        }
        Ok(arity)
    }

    /// The same for the piece that ends with its last term; gives the arity and how many bytes it has.
    #[inline(always)]
    pub fn read_first(&mut self) -> Result<(u8, usize), Refusal> {
        let bytes = self.bytes;
        let arity = header(bytes)?;
        let used = self.terms(&bytes[2..], 2, usize::from(arity), 0, 1)?;
        Ok((arity, used + 2))
    }

    /// The offset of the known term at a place, or of the reading there or above it that will never come, else
    /// `LACKING` or `NOT_KNOWN`.
    #[inline(always)]
    pub fn find(&self, place: usize) -> usize {
        let offset = usize::from(self.offsets[place]);
        if offset == 0 {
            return self.find_above(place);
        }
        if self.bytes[offset] == UNKNOWN {
            NOT_KNOWN
        } else {
            offset
        }
    }

    /// What `find` gives for a place at which no term stands: it depends on the next term above.
    fn find_above(&self, place: usize) -> usize {
        let mut above = usize::from(PARENT[place]);
        while above < PLACES {
            let offset = usize::from(self.offsets[above]);
            if offset != 0 {
                return match self.bytes[offset] {
                    UNKNOWN => NOT_KNOWN,
                    NEVER => offset,
                    _ => LACKING,
                };
            }
            above = usize::from(PARENT[above]);
        }
        LACKING
    }

    /// Notes a term, whose first byte is at offset `from` of the piece; gives how many bytes it has.
    fn term(&mut self, bytes: &[u8], from: usize, place: usize, depth: usize) -> Result<usize, Refusal> {
        match records::term(bytes) {
            None => Err(14),
            Some(Term::Unknown) => {
                self.offsets[place] = from as u16;
                Ok(1)
            }
            Some(Term::SymbolOrNumber) => {
                self.offsets[place] = from as u16;
                Ok(3)
            }
            Some(Term::Gauged) => {
                self.offsets[place] = from as u16;
                Ok(4)
            }
            Some(Term::Compound(arity)) => {
                if depth > 3 {
                    return Err(15);
                }
                if !(1..=4).contains(&arity) {
                    return Err(16);
                }
                self.offsets[place] = from as u16;
                Ok(self.terms(&bytes[4..], from + 4, usize::from(arity), place + 1, depth + 1)? + 4)
            }
            Some(Term::Span(low, high)) => {
                if low > high {
                    return Err(32);
                }
                self.offsets[place] = from as u16;
                Ok(5)
            }
            Some(Term::Never) => {
                self.offsets[place] = from as u16;
                self.nevers = true;
                Ok(1)
            }
        }
    }

    /// Notes so many terms side by side, the first at this place; gives how many bytes they have.
    fn terms(
        &mut self,
        bytes: &[u8],
        from: usize,
        count: usize,
        first: usize,
        depth: usize,
    ) -> Result<usize, Refusal> {
        let mut at = 0;
        let mut place = first;
        for _ in 0..count {
            at += self.term(&bytes[at..], from + at, place, depth)?;
            place += STEP[depth - 1];
        }
        Ok(at)
    }
}
