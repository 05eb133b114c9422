//! Refusals: the questions of document 01, each in its words, and of requests of document 02. Question 3
//! reads 64 by request 9; by request 4 question 14 admits record 34, 24 number cases that overlap, and 32 comes
//! after 16 at each term; by request 5 question 4 admits record 26, 7 applies to it, and 24 asks that no id is in
//! two cases; by request 6 question 14 admits record 35, and a place below one is in 27 as it is; by request 7 question
//! 4 admits record 27, 7 applies to it, 14 admits record 36, and 24 asks that number cases ascend by gauge first.

use std::error::Error;
use std::fmt;

/// A refusal: the first question that got a no.
///
/// ```
/// // A sheet whose one rule wants a number from 9 to 5.
/// let refusal = voltunnis::check_sheet(&[0x10, 1, 1, 0x22, 0, 9, 0, 5]).unwrap_err();
/// assert_eq!(refusal.number(), 7);
/// assert_eq!(refusal.to_string(), "refused 7: Is low at most high?");
/// ```
#[derive(Clone, Copy, Debug, PartialEq, Eq, PartialOrd, Ord, Hash)]
pub struct Refusal(u8);

/// The questions, ascending: the number, when it is asked, and its words.
const QUESTIONS: [(u8, &str, &str); 35] = [
    (1, SHEET, "Does it begin with a whole 10 record?"),
    (2, SHEET, "Is its arity 1 to 8?"),
    (3, SHEET, "Has it at most 64 rules (0 is allowed)?"),
    (4, PATTERN, "Is it a whole record of kinds 20 to 27?"),
    (5, PATTERN, "If compound, is its depth at most 3?"),
    (6, PATTERN, "Is its arity 1 to 4?"),
    (7, PATTERN, "Is low at most high?"),
    (8, PATTERN, "Is the variable 0 to 15?"),
    (9, "At a rule's end", "Has each variable's set of ranges a number in common?"),
    (10, SHEET_END, "Are no bytes left?"),
    (11, SHEET_END, "Are there at most 64 tests?"),
    (12, PIECE, "Does it begin with a whole 11 record?"),
    (13, PIECE, "Is its arity 1 to 8?"),
    (14, PIECE, "Is each term a whole record of kinds 30 to 36?"),
    (15, PIECE, "If compound, is its depth at most 3?"),
    (16, PIECE, "Is its arity 1 to 4?"),
    (17, PIECE, "Are no bytes left?"),
    (18, BUILDING, "Has the graph at most 1,024 nodes?"),
    (19, BUILDING, "Does it fit the lent buffer?"),
    (20, WALKING, "Are the two arities equal?"),
    (
        21, WALKING,
        "Does the graph begin with a whole 12 record with the sheet's arity and rule count, and 1 to 1,024 nodes?",
    ),
    (
        22, NODE,
        "Are the record and its cases whole, the node of kind 40 to 43 or 47, its cases of kinds 44 to 46, \
         a switch with 1 case or more?",
    ),
    (23, NODE, "Are its nodes and rule in range, its place or pair among the sheet's tests?"),
    (24, NODE, "Are cases strictly ascending, numbers by gauge, low, then high, low at most high, no id in two?"),
    (25, "Then", "Are no bytes left?"),
    (26, WALKED, "Have fewer than 64 edges been walked?"),
    (27, WALKED, "Is each place it tests in the piece, or below an unknown or record 35?"),
    (28, ORDER, "Is the table 1,360 bytes?"),
    (29, ORDER, "Is each of its places 0 to 679, and none twice?"),
    (30, ORDER, "Does none stand before its parent?"),
    (31, TIDYING, "Does the tidy sheet fit the lent buffer?"),
    (32, PIECE, "If a span, is its low at most its high?"),
    (36, WINDOW, "Is the rule 1 to 64 for commit or execute, 0 for the others?"),
    (37, TRACK, "Is the list of positions 1,360 bytes?"),
    (38, TRACK, "Has the lent buffer 1,360 bytes or more?"),
];

const SHEET: &str = "Sheet";
const PATTERN: &str = "At each pattern";
const SHEET_END: &str = "At the sheet's end";
const PIECE: &str = "Piece";
const BUILDING: &str = "Building, after the sheet";
const WALKING: &str = "Walking, after sheet and piece";
const NODE: &str = "At each node";
const WALKED: &str = "At each switch or pair walked";
const ORDER: &str = "Reading order, after the sheet";
const TIDYING: &str = "Tidying, after the sheet";
const WINDOW: &str = "At each answer fed";
const TRACK: &str = "Track drawing";

impl Refusal {
    /// The refusal by the question of this number, if there is one.
    ///
    /// ```
    /// use voltunnis::Refusal;
    ///
    /// assert_eq!(Refusal::from_number(20).unwrap().question(), "Are the two arities equal?");
    /// assert_eq!(Refusal::from_number(0), None);
    /// assert_eq!(Refusal::from_number(33), None);
    /// ```
    pub fn from_number(number: u8) -> Option<Refusal> {
        QUESTIONS.iter().any(|row| row.0 == number).then_some(Refusal(number))
    }

    /// All refusals, ascending.
    ///
    /// ```
    /// assert_eq!(voltunnis::Refusal::all().count(), 35);
    /// ```
    pub fn all() -> impl Iterator<Item = Refusal> {
        QUESTIONS.iter().map(|row| Refusal(row.0))
    }

    /// The question's number, from 1.
    ///
    /// ```
    /// assert_eq!(voltunnis::check_piece(&[]).unwrap_err().number(), 12);
    /// ```
    pub fn number(self) -> u8 {
        self.0
    }

    /// The question, in document 01's words where it has it.
    ///
    /// ```
    /// let refusal = voltunnis::check_piece(&[0x11, 9]).unwrap_err();
    /// assert_eq!(refusal.question(), "Is its arity 1 to 8?");
    /// ```
    pub fn question(self) -> &'static str {
        self.row().2
    }

    fn row(self) -> &'static (u8, &'static str, &'static str) {
        QUESTIONS.iter().find(|row| row.0 == self.0).expect("a refusal has a question")
    }

    /// When the question is asked, in document 01's words where it has it.
    ///
    /// ```
    /// let refusal = voltunnis::check_sheet(&[0x10, 1, 1, 0x24, 16]).unwrap_err();
    /// assert_eq!(refusal.asked(), "At each pattern");
    /// ```
    pub fn asked(self) -> &'static str {
        self.row().1
    }
}

/// The number, as the listing prints it, and the question.
impl fmt::Display for Refusal {
    fn fmt(&self, to: &mut fmt::Formatter) -> fmt::Result {
        write!(to, "refused {}: {}", self.number(), self.question())
    }
}

impl Error for Refusal {}

/// The question's number.
impl From<Refusal> for u8 {
    fn from(refusal: Refusal) -> u8 {
        refusal.number()
    }
}
