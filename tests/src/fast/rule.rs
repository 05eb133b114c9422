//! The tests of one rule made on a piece, from the rule's bytes.

use super::compare::{equal, Truth};
use super::piece::{Piece, LACKING, NOT_KNOWN};
use super::places::STEP;
use super::records::{self, ends, on_gauge, wide, Pattern, COMPOUND, GAUGED, NUMBER, SPAN, SYMBOL};
use super::sheet::Sheet;
use super::variables::Variables;

/// What tests said of which none is contradicted: how many bytes were read, and those not known.
#[derive(Clone, Copy)]
pub struct Made {
    used: usize,
    pub not_known: u64,
}

/// Makes all tests of the rule whose patterns begin these bytes; none if one is contradicted.
pub fn make(bytes: &[u8], sheet: &Sheet, piece: &Piece, variables: &mut Variables) -> Option<Made> {
    variables.clear();
    let mut made = patterns(bytes, usize::from(sheet.arity), 0, 1, sheet, piece, variables)?;
    let mut left = variables.met();
    while left != 0 {
        let number = left.trailing_zeros() as usize;
        left &= left - 1;
        made.not_known |= variable(variables, number, sheet, piece)?;
    }
    Some(made)
}

/// A series' test at a place, whose record has so many bytes: these, and the test itself if it is not known.
#[inline(always)]
fn series_test(
    sheet: &Sheet,
    piece: &Piece,
    place: usize,
    (low, high): (u16, u16),
    used: usize,
) -> Option<Made> {
    let offset = piece.find(place);
    if offset == NOT_KNOWN {
        return Some(Made { used, not_known: 1 << sheet.place_test(place) });
    }
    in_series(piece, offset, low, high).then_some(Made { used, not_known: 0 })
}

/// Whether a number from low to high, both on their gauge, stands at this offset.
#[inline(always)]
pub fn in_range(piece: &Piece, offset: usize, low: u32, high: u32) -> Truth {
    if offset <= NOT_KNOWN {
        return if offset == NOT_KNOWN { Truth::NotKnown } else { Truth::Contradicted };
    }
    let kind = piece.bytes[offset];
    if kind != NUMBER && kind != SPAN && kind != GAUGED {
        return Truth::Contradicted;
    }
    let (first, last) = ends(piece.bytes, offset);
    if low <= first && last <= high {
        Truth::Holds
    } else if last < low || high < first {
        Truth::Contradicted
    } else {
        Truth::NotKnown
    }
}

/// A range's test at a place, whose record has so many bytes: these, and the test itself if it is not known.
#[inline(always)]
fn range_test(
    sheet: &Sheet,
    piece: &Piece,
    place: usize,
    (low, high): (u32, u32),
    used: usize,
) -> Option<Made> {
    match in_range(piece, piece.find(place), low, high) {
        Truth::Holds => Some(Made { used, not_known: 0 }),
        Truth::NotKnown => Some(Made { used, not_known: 1 << sheet.place_test(place) }),
        Truth::Contradicted => None,
    }
}

/// Whether a symbol with an id from low to high stands at this offset.
#[inline(always)]
pub fn in_series(piece: &Piece, offset: usize, low: u16, high: u16) -> bool {
    offset > NOT_KNOWN
        && piece.bytes[offset] == SYMBOL
        && (low..=high).contains(&wide(piece.bytes, offset + 1))
}

/// Whether a compound of this id and arity stands at this offset.
#[inline(always)]
pub fn is_compound(piece: &Piece, offset: usize, id: u16, arity: u8) -> bool {
    offset != LACKING
        && piece.bytes[offset] == COMPOUND
        && wide(piece.bytes, offset + 1) == id
        && piece.bytes[offset + 3] == arity
}

/// Makes the place tests of a pattern.
fn pattern(
    bytes: &[u8],
    place: usize,
    depth: usize,
    sheet: &Sheet,
    piece: &Piece,
    variables: &mut Variables,
) -> Option<Made> {
    match records::pattern(bytes)? {
        Pattern::Anything => Some(Made { used: 1, not_known: 0 }),
        Pattern::Symbol(id) => series_test(sheet, piece, place, (id, id), 3),
        Pattern::Series(low, high) => series_test(sheet, piece, place, (low, high), 5),
        Pattern::Range(low, high) => range_test(sheet, piece, place, (low.into(), high.into()), 5),
        Pattern::Gauged(gauge, low, high) => {
            range_test(sheet, piece, place, (on_gauge(gauge, low), on_gauge(gauge, high)), 6)
        }
        Pattern::Compound(id, arity) => {
            let offset = piece.find(place);
            let mut not_known = 0;
            if offset == NOT_KNOWN {
                not_known = 1 << sheet.place_test(place);
            } else if !is_compound(piece, offset, id, arity) {
                return None;
            }
            let arity = usize::from(arity);
            let made = patterns(&bytes[4..], arity, place + 1, depth + 1, sheet, piece, variables)?;
            Some(Made { used: made.used + 4, not_known: not_known | made.not_known })
        }
        Pattern::Variable(number) => {
            variables.meet(number, place);
            Some(Made { used: 2, not_known: 0 })
        }
        Pattern::Ranged(number, low, high) => {
            variables.meet_ranged(number, place, low, high);
            Some(Made { used: 6, not_known: 0 })
        }
    }
}

/// Makes the place tests of so many patterns side by side, the first at this place.
fn patterns(
    bytes: &[u8],
    count: usize,
    first: usize,
    depth: usize,
    sheet: &Sheet,
    piece: &Piece,
    variables: &mut Variables,
) -> Option<Made> {
    let mut all = Made { used: 0, not_known: 0 };
    let mut place = first;
    for _ in 0..count {
        let made = pattern(&bytes[all.used..], place, depth, sheet, piece, variables)?;
        all.used += made.used;
        all.not_known |= made.not_known;
        place += STEP[depth - 1];
    }
    Some(all)
}

/// Makes the tests of a variable; gives those not known.
fn variable(variables: &Variables, number: usize, sheet: &Sheet, piece: &Piece) -> Option<u64> {
    let count = variables.count(number);
    let mut not_known = 0;
    for i in 0..count {
        let p = variables.place(number, i);
        if variables.is_ranged(number) {
            let range = (variables.low(number).into(), variables.high(number).into());
            not_known |= range_test(sheet, piece, usize::from(p), range, 0)?.not_known;
        }
        for j in i + 1..count {
            let q = variables.place(number, j);
            match equal(piece, usize::from(p), usize::from(q)) {
                Truth::Contradicted => return None,
                Truth::NotKnown => not_known |= 1 << sheet.pair_test(p, q),
                Truth::Holds => {}
            }
        }
    }
    Some(not_known)
}
