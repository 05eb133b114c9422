//! The counts of the last 1,000 answers (document 02, request 12), by keeping the answers and
//! counting them anew.

use crate::results::{Refusal, Word, WordCounts};
use std::collections::VecDeque;

/// How many answers are kept.
pub const LAST: usize = 1000;

/// The last answers that were fed, the oldest first.
#[derive(Default)]
pub struct Window {
    last: VecDeque<(Word, u8)>,
}

impl Window {
    /// Feeds an answer: question 36.
    pub fn feed(&mut self, word: u8, rule: u8) -> Result<(), Refusal> {
        let word = Word::from_number(word).ok_or(36)?;
        let in_order = match word {
            Word::Commit | Word::Execute => (1..=64).contains(&rule),
            Word::Suspend | Word::Fail => rule == 0,
        };
        if !in_order {
            return Err(36);
        }
        if self.last.len() == LAST {
            self.last.pop_front();
        }
        self.last.push_back((word, rule));
        Ok(())
    }

    /// How many answers are kept.
    pub fn len(&self) -> usize {
        self.last.len()
    }

    pub fn is_empty(&self) -> bool {
        self.last.is_empty()
    }

    /// The counts of the four words.
    pub fn words(&self) -> WordCounts {
        let count = |word| self.last.iter().filter(|(kept, _)| *kept == word).count() as u16;
        WordCounts {
            commit: count(Word::Commit),
            execute: count(Word::Execute),
            suspend: count(Word::Suspend),
            fail: count(Word::Fail),
        }
    }

    /// The commits of every rule.
    pub fn commits(&self) -> [u16; 256] {
        let mut commits = [0; 256];
        for (_, rule) in self.last.iter().filter(|(word, _)| *word == Word::Commit) {
            commits[usize::from(*rule)] += 1;
        }
        commits
    }
}
