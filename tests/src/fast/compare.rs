//! Terms of a piece compared: the equality test of two places.

use super::piece::{Piece, LACKING, NOT_KNOWN};
use super::places::step_of_children;
use super::records::{ends, COMPOUND, GAUGED, NEVER, NUMBER, SPAN, UNKNOWN};

/// What a piece says about a test.
#[derive(Clone, Copy, PartialEq, Eq)]
pub enum Truth {
    Holds,
    NotKnown,
    Contradicted,
}

/// The equality test of two places. A term that is or holds a reading that will never come differs from every term.
pub fn equal(piece: &Piece, p: usize, q: usize) -> Truth {
    if piece.nevers && (is_never(piece, p) || is_never(piece, q)) {
        return Truth::Contradicted;
    }
    let a = piece.find(p);
    let b = piece.find(q);
    if a == LACKING || b == LACKING {
        return Truth::Contradicted;
    }
    if a == NOT_KNOWN || b == NOT_KNOWN {
        return Truth::NotKnown;
    }
    if piece.bytes[a] != COMPOUND {
        return leaves(piece.bytes, a, b);
    }
    same(piece, p, q, step_of_children(p), step_of_children(q), 3)
}

/// Whether what is found at a place is or holds a reading that will never come. `LACKING` and `NOT_KNOWN` are offsets
/// of the header, whose bytes are no kinds of terms.
#[inline(never)]
fn is_never(piece: &Piece, place: usize) -> bool {
    match piece.bytes[piece.find(place)] {
        NEVER => true,
        COMPOUND => holds_never(piece, place, step_of_children(place)),
        _ => false,
    }
}

/// Whether the term that stands at a place is or holds one. The step is that between its children.
fn holds_never(piece: &Piece, place: usize, step: usize) -> bool {
    let at = usize::from(piece.offsets[place]);
    match piece.bytes[at] {
        NEVER => true,
        COMPOUND => {
            let arity = usize::from(piece.bytes[at + 3]);
            (0..arity).any(|j| holds_never(piece, place + 1 + j * step, step / 4))
        }
        _ => false,
    }
}

/// Whether the records at two offsets have the same kind and the same wide field.
#[inline(always)]
fn same_head(bytes: &[u8], a: usize, b: usize) -> bool {
    bytes[a] == bytes[b] && bytes[a + 1] == bytes[b + 1] && bytes[a + 2] == bytes[b + 2]
}

/// Compares the terms at two offsets, of which the first is known and no compound.
#[inline(always)]
fn leaves(bytes: &[u8], a: usize, b: usize) -> Truth {
    if bytes[a] < SPAN && bytes[b] < SPAN {
        return if same_head(bytes, a, b) { Truth::Holds } else { Truth::Contradicted };
    }
    numbers(bytes, a, b)
}

/// The same where one of them is a span or names its gauge.
fn numbers(bytes: &[u8], a: usize, b: usize) -> Truth {
    let is_number = |kind: u8| kind == NUMBER || kind == SPAN || kind == GAUGED;
    if !is_number(bytes[a]) || !is_number(bytes[b]) {
        return Truth::Contradicted;
    }
    let ((low, high), (first, last)) = (ends(bytes, a), ends(bytes, b));
    if high < first || last < low {
        Truth::Contradicted
    } else if low == high && first == last {
        Truth::Holds
    } else {
        Truth::NotKnown
    }
}

/// Compares the terms at two places where terms stand, so many depths above the deepest. The steps are
/// those between the children of each.
fn same(piece: &Piece, p: usize, q: usize, step_p: usize, step_q: usize, left: usize) -> Truth {
    let bytes = piece.bytes;
    let a = usize::from(piece.offsets[p]);
    let b = usize::from(piece.offsets[q]);
    let kind = bytes[a];
    if kind == UNKNOWN || bytes[b] == UNKNOWN {
        return Truth::NotKnown;
    }
    if kind != COMPOUND {
        return leaves(bytes, a, b);
    }
    if !same_head(bytes, a, b) || bytes[a + 3] != bytes[b + 3] || left == 0 {
        return Truth::Contradicted;
    }
    same_arguments(piece, p + 1, q + 1, step_p, step_q, usize::from(bytes[a + 3]), left - 1)
}

/// Compares so many arguments in turn, the first ones at these places.
fn same_arguments(
    piece: &Piece,
    p: usize,
    q: usize,
    step_p: usize,
    step_q: usize,
    count: usize,
    left: usize,
) -> Truth {
    let mut all = Truth::Holds;
    for j in 0..count {
        match same(piece, p + j * step_p, q + j * step_q, step_p / 4, step_q / 4, left) {
            Truth::Contradicted => return Truth::Contradicted,
            Truth::NotKnown => all = Truth::NotKnown,
            Truth::Holds => {}
        }
    }
    all
}
