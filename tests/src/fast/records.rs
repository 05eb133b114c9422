//! Records at the start of bytes, read in place: none where the record is cut or of another kind.

/// The wide field at this byte.
#[inline(always)]
pub fn wide(bytes: &[u8], at: usize) -> u16 {
    u16::from(bytes[at]) << 8 | u16::from(bytes[at + 1])
}

/// Writes the wide field at this byte, its last byte first, so that its bounds are checked once.
#[inline(always)]
pub fn put_wide(bytes: &mut [u8], at: usize, field: u16) {
    bytes[at + 1] = field as u8;
    bytes[at] = (field >> 8) as u8;
}

/// A pattern of kinds 20 to 27.
#[derive(Clone, Copy)]
pub enum Pattern {
    Anything,
    Symbol(u16),
    Range(u16, u16),
    Compound(u16, u8),
    Variable(u8),
    Ranged(u8, u16, u16),
    Series(u16, u16),
    Gauged(u8, u16, u16),
}

#[inline(always)]
pub fn pattern(bytes: &[u8]) -> Option<Pattern> {
    let len = bytes.len();
    if len == 0 {
        return None;
    }
    match bytes[0] {
        0x20 => Some(Pattern::Anything),
        0x21 if len >= 3 => Some(Pattern::Symbol(wide(bytes, 1))),
        0x22 if len >= 5 => Some(Pattern::Range(wide(bytes, 1), wide(bytes, 3))),
        0x23 if len >= 4 => Some(Pattern::Compound(wide(bytes, 1), bytes[3])),
        0x24 if len >= 2 => Some(Pattern::Variable(bytes[1])),
        0x25 if len >= 6 => Some(Pattern::Ranged(bytes[1], wide(bytes, 2), wide(bytes, 4))),
        0x26 if len >= 5 => Some(Pattern::Series(wide(bytes, 1), wide(bytes, 3))),
        0x27 if len >= 6 => Some(Pattern::Gauged(bytes[1], wide(bytes, 2), wide(bytes, 4))),
        _ => None,
    }
}

/// The kinds of terms.
pub const UNKNOWN: u8 = 0x30;
pub const SYMBOL: u8 = 0x31;
pub const NUMBER: u8 = 0x32;
pub const COMPOUND: u8 = 0x33;
pub const SPAN: u8 = 0x34;
pub const NEVER: u8 = 0x35;
pub const GAUGED: u8 = 0x36;

/// A term of kinds 30 to 36, as far as reading on depends on it.
#[derive(Clone, Copy)]
pub enum Term {
    Unknown,
    SymbolOrNumber,
    Compound(u8),
    Span(u16, u16),
    Never,
    Gauged,
}

#[inline(always)]
pub fn term(bytes: &[u8]) -> Option<Term> {
    let len = bytes.len();
    if len == 0 {
        return None;
    }
    match bytes[0] {
        UNKNOWN => Some(Term::Unknown),
        SYMBOL | NUMBER if len >= 3 => Some(Term::SymbolOrNumber),
        COMPOUND if len >= 4 => Some(Term::Compound(bytes[3])),
        SPAN if len >= 5 => Some(Term::Span(wide(bytes, 1), wide(bytes, 3))),
        NEVER => Some(Term::Never),
        GAUGED if len >= 4 => Some(Term::Gauged),
        _ => None,
    }
}

/// A number on a gauge as one number, which ascends by gauge, then value.
#[inline(always)]
pub fn on_gauge(gauge: u8, value: u16) -> u32 {
    u32::from(gauge) << 16 | u32::from(value)
}

/// The ends between which the number or span at an offset lies, on their gauge; a number is both.
#[inline(always)]
pub fn ends(bytes: &[u8], at: usize) -> (u32, u32) {
    let low = match bytes[at] {
        GAUGED => on_gauge(bytes[at + 1], wide(bytes, at + 2)),
        _ => wide(bytes, at + 1).into(),
    };
    (low, if bytes[at] == SPAN { wide(bytes, at + 3).into() } else { low })
}

/// The bytes of a switch before its cases.
pub const SWITCH: usize = 9;

/// A node of kinds 40 to 43 and 47; a switch's cases follow as records of their own.
#[derive(Clone, Copy)]
pub enum Node {
    Fail,
    Suspend,
    Execute(u8),
    Switch { place: u16, cases: u16, neither: u16, unknown: u16 },
    Pair { p: u16, q: u16, no: u16, other: u16 },
}

#[inline(always)]
pub fn node(bytes: &[u8]) -> Option<Node> {
    let len = bytes.len();
    if len == 0 {
        return None;
    }
    match bytes[0] {
        0x40 => Some(Node::Fail),
        0x41 => Some(Node::Suspend),
        0x42 if len >= 2 => Some(Node::Execute(bytes[1])),
        0x43 if len >= SWITCH => Some(Node::Switch {
            place: wide(bytes, 1),
            cases: wide(bytes, 3),
            neither: wide(bytes, 5),
            unknown: wide(bytes, 7),
        }),
        0x47 if len >= 9 => Some(Node::Pair {
            p: wide(bytes, 1),
            q: wide(bytes, 3),
            no: wide(bytes, 5),
            other: wide(bytes, 7),
        }),
        _ => None,
    }
}

/// The kinds of cases.
pub const SYMBOLS_CASE: u8 = 0x44;
pub const COMPOUND_CASE: u8 = 0x45;
pub const NUMBERS_CASE: u8 = 0x46;

/// The bytes of a case of symbols, of a compound's and of numbers.
pub const SYMBOLS_BYTES: usize = 7;
pub const COMPOUND_BYTES: usize = 6;
pub const NUMBERS_BYTES: usize = 8;

/// A case of kinds 44 to 46; the last field is its node.
#[derive(Clone, Copy)]
pub enum Case {
    Symbols(u16, u16, u16),
    Compound(u16, u8, u16),
    Numbers(u8, u16, u16, u16),
}

#[inline(always)]
pub fn case(bytes: &[u8]) -> Option<Case> {
    let len = bytes.len();
    if len < COMPOUND_BYTES {
        return None;
    }
    match bytes[0] {
        SYMBOLS_CASE if len >= SYMBOLS_BYTES => {
            Some(Case::Symbols(wide(bytes, 1), wide(bytes, 3), wide(bytes, 5)))
        }
        COMPOUND_CASE => Some(Case::Compound(wide(bytes, 1), bytes[3], wide(bytes, 4))),
        NUMBERS_CASE if len >= NUMBERS_BYTES => {
            Some(Case::Numbers(bytes[1], wide(bytes, 2), wide(bytes, 4), wide(bytes, 6)))
        }
        _ => None,
    }
}
