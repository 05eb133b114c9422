//! The plain answer: the tests of every rule made in turn.

use super::piece::Piece;
use super::rule::make;
use super::sheet::{RuleStarts, Sheet};
use super::variables::Variables;
use crate::results::{Plain, Word};

/// The plain answer of an accepted sheet on a piece of its arity.
pub fn answer(sheet: &Sheet, starts: &RuleStarts, piece: &Piece, variables: &mut Variables) -> Plain {
    let mut rule = 0;
    let mut not_known = 0;
    for next in 0..sheet.rules {
        let bytes = &sheet.bytes[starts[usize::from(next)] as usize..];
        if let Some(made) = make(bytes, sheet, piece, variables) {
            if rule != 0 {
                return Plain { word: Word::Suspend, rule: 0 };
            }
            rule = next + 1;
            not_known = made.not_known;
        }
    }
    let word = if rule == 0 {
        Word::Fail
    } else if not_known == 0 {
        Word::Commit
    } else {
        Word::Execute
    };
    Plain { word, rule }
}
