//! What the calls hand back when nothing is refused.

use std::fmt;

/// What an accepted sheet check gives.
#[derive(Clone, Copy, Debug, PartialEq, Eq)]
pub struct SheetSize {
    /// How many arguments each rule has.
    pub arity: u8,
    /// How many rules it has.
    pub rules: u8,
    /// How many tests it has: distinct tested places and pairs.
    pub tests: u8,
}

/// What an accepted piece check gives.
#[derive(Clone, Copy, Debug, PartialEq, Eq)]
pub struct PieceSize {
    /// How many arguments it has.
    pub arity: u8,
}

/// The word of an answer.
#[derive(Clone, Copy, Debug, PartialEq, Eq, PartialOrd, Ord, Hash)]
pub enum Word {
    /// One rule is met, and no other can be.
    Commit = 1,
    /// Only one rule can be met, and it isn't known yet whether it is.
    Execute = 2,
    /// Two rules or more can be met.
    Suspend = 3,
    /// No rule can be met.
    Fail = 4,
}

/// The plain answer: its word and its rule.
#[derive(Clone, Copy, Debug, PartialEq, Eq)]
pub struct Plain {
    pub word: Word,
    /// The rule, from 1; 0 for suspend and fail.
    pub rule: u8,
}

/// What an accepted graph check gives.
#[derive(Clone, Copy, Debug, PartialEq, Eq)]
pub struct GraphSize {
    pub nodes: u16,
}

/// What an accepted build gives.
#[derive(Clone, Copy, Debug, PartialEq, Eq)]
pub struct Built {
    pub nodes: u16,
    /// How many bytes were written.
    pub bytes: u32,
}

/// What any other accepted writer gives.
#[derive(Clone, Copy, Debug, PartialEq, Eq)]
pub struct Written {
    /// How many bytes were written.
    pub bytes: u32,
}

/// What an accepted walk gives, its wait list apart.
#[derive(Clone, Copy, Debug, PartialEq, Eq)]
pub struct Walk {
    pub word: Word,
    /// The rule, from 1; 0 for suspend and fail.
    pub rule: u8,
    /// How many edges were walked, at most 64.
    pub edges: u8,
}

/// All that a walk says.
#[derive(Clone, Copy, Debug, PartialEq, Eq)]
pub struct Answer {
    pub walk: Walk,
    /// The wait list: test t is bit t.
    pub wait: u64,
}

/// How far a run over many pieces came.
#[derive(Clone, Copy, Debug, PartialEq, Eq)]
pub struct Run {
    /// How many results were written.
    pub results: u32,
    /// How many bytes the pieces have that were read: the next run goes on after them.
    pub bytes: u32,
}

impl Answer {
    /// The numbers of the tests that the piece waits for, ascending.
    ///
    /// ```
    /// use voltunnis::{Answer, Walk, Word};
    ///
    /// let answer = Answer { walk: Walk { word: Word::Suspend, rule: 0, edges: 2 }, wait: 0b101 };
    /// assert_eq!(answer.waits().collect::<Vec<u8>>(), [0, 2]);
    /// ```
    pub fn waits(&self) -> impl Iterator<Item = u8> {
        let wait = self.wait;
        (0..64).filter(move |test| wait >> test & 1 == 1)
    }
}

/// The answer as the listing prints it: word, rule, edges, and the wait list in 16 hexadecimal digits.
impl fmt::Display for Answer {
    fn fmt(&self, to: &mut fmt::Formatter) -> fmt::Result {
        let Walk { word, rule, edges } = self.walk;
        write!(to, "{word} {rule} {edges} {:016x}", self.wait)
    }
}

impl Word {
    /// The word of this number, if there is one.
    ///
    /// ```
    /// use voltunnis::Word;
    ///
    /// assert_eq!(Word::from_number(3), Some(Word::Suspend));
    /// assert_eq!(Word::from_number(5), None);
    /// ```
    pub fn from_number(number: u8) -> Option<Word> {
        match number {
            1 => Some(Word::Commit),
            2 => Some(Word::Execute),
            3 => Some(Word::Suspend),
            4 => Some(Word::Fail),
            _ => None,
        }
    }

    /// The word as the listing prints it.
    ///
    /// ```
    /// assert_eq!(voltunnis::Word::Commit.name(), "commit");
    /// ```
    pub fn name(self) -> &'static str {
        match self {
            Word::Commit => "commit",
            Word::Execute => "execute",
            Word::Suspend => "suspend",
            Word::Fail => "fail",
        }
    }
}

/// The word as the listing prints it.
impl fmt::Display for Word {
    fn fmt(&self, to: &mut fmt::Formatter) -> fmt::Result {
        to.pad(self.name())
    }
}
