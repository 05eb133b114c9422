//! The plain answer: of each rule, whether all fillings of the piece meet it, some or none.
//!
//! The rules that some filling meets decide: with none the answer is fail, with two or more it is
//! suspend, with one it is commit if every filling meets that rule and execute otherwise. Some
//! filling meets a rule exactly when no test of it is contradicted, every filling exactly when all
//! its tests hold: `fillings` tries that out.

use super::piece::Piece;
use super::sheet::{Rule, Sheet};
use super::truth::{equal, wanted, Truth};
use crate::results::{Plain, Word};

/// What the piece says about all tests of a rule together.
pub fn rule_truth(piece: &Piece, rule: &Rule) -> Truth {
    let mut all = Truth::Holds;
    for &(place, want) in &rule.wants {
        all = all.and(wanted(piece, place, want));
        if all == Truth::Contradicted {
            return all;
        }
    }
    for &(p, q) in &rule.pairs {
        all = all.and(equal(piece, p, q));
        if all == Truth::Contradicted {
            return all;
        }
    }
    all
}

/// The plain answer of a sheet on a piece of its arity.
pub fn answer(sheet: &Sheet, piece: &Piece) -> Plain {
    let mut met = None;
    for (rule, number) in sheet.rules.iter().zip(1..) {
        match (rule_truth(piece, rule), met) {
            (Truth::Contradicted, _) => {}
            (_, Some(_)) => return Plain { word: Word::Suspend, rule: 0 },
            (Truth::Holds, None) => met = Some(Plain { word: Word::Commit, rule: number }),
            (Truth::NotKnown, None) => met = Some(Plain { word: Word::Execute, rule: number }),
        }
    }
    met.unwrap_or(Plain { word: Word::Fail, rule: 0 })
}
