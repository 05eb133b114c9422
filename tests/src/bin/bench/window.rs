//! The calls of a window, against plain Rust that does the same few steps.

use crate::table::Table;
use crate::timing::against;
use std::hint::black_box;
use voltunnis_tests::generate::random::Random;
use voltunnis_tests::results::{Refusal, WordCounts};
use voltunnis_tests::window::{commits, feed, words, CELLS};

/// How many answers are kept, and how many calls a row times.
const LAST: usize = 1000;

/// The last answers in a ring, and their counts. Its functions are called through pointers, as a
/// linked library's are.
struct Ring {
    answers: [(u8, u8); LAST],
    next: usize,
    held: usize,
    words: [u16; 4],
    commits: [u16; 64],
}

impl Ring {
    fn new() -> Self {
        Ring { answers: [(0, 0); LAST], next: 0, held: 0, words: [0; 4], commits: [0; 64] }
    }

    fn feed(&mut self, word: u8, rule: u8) -> Result<(), Refusal> {
        match word {
            1 | 2 if (1..=64).contains(&rule) => {}
            3 | 4 if rule == 0 => {}
            _ => return Err(36),
        }
        if self.held < LAST {
            self.held += 1;
        } else {
            let (word, rule) = self.answers[self.next];
            self.words[usize::from(word) - 1] -= 1;
            if word == 1 {
                self.commits[usize::from(rule) - 1] -= 1;
            }
        }
        self.answers[self.next] = (word, rule);
        self.next = if self.next + 1 < LAST { self.next + 1 } else { 0 };
        self.words[usize::from(word) - 1] += 1;
        if word == 1 {
            self.commits[usize::from(rule) - 1] += 1;
        }
        Ok(())
    }

    fn words(&self) -> WordCounts {
        let [commit, execute, suspend, fail] = self.words;
        WordCounts { commit, execute, suspend, fail }
    }

    fn commits(&self, rule: u8) -> u16 {
        match rule {
            1..=64 => self.commits[usize::from(rule) - 1],
            _ => 0,
        }
    }
}

/// So many answers as a track gives them: this share are commits of few rules, the rest of any word.
fn answers(random: &mut Random, share: usize) -> Vec<(u8, u8)> {
    let mut answer = || match random.percent(share) {
        true => (1, random.between(1, 4) as u8),
        false => match random.between(1, 4) as u8 {
            word @ (1 | 2) => (word, random.between(1, 64) as u8),
            word => (word, 0),
        },
    };
    (0..7 * LAST).map(|_| answer()).collect()
}

/// Feeds these answers; how many were taken.
fn fed(answers: &[(u8, u8)], mut feed: impl FnMut(u8, u8) -> Result<(), Refusal>) -> usize {
    answers.iter().filter(|(word, rule)| feed(*word, *rule).is_ok()).count()
}

/// Asks a thousand questions, of one rule after another.
fn asked<T>(question: impl Fn(u8) -> T) {
    (0..LAST).for_each(|i| {
        black_box(question((i % 64 + 1) as u8));
    });
}

/// A thousand feeds, and a thousand questions.
pub fn rows(table: &mut Table) {
    for (case, share) in [("answers of all words", 0), ("mostly commits", 95)] {
        let answers = answers(&mut Random::new(12), share);
        let (mut window, mut ring) = ([0; CELLS], Ring::new());
        let (ring_feed, ring_words, ring_commits) = black_box((
            Ring::feed as fn(&mut Ring, u8, u8) -> Result<(), Refusal>,
            Ring::words as fn(&Ring) -> WordCounts,
            Ring::commits as fn(&Ring, u8) -> u16,
        ));
        let (mut one, mut two) = (answers.chunks(LAST).cycle(), answers.chunks(LAST).cycle());
        let times = against(
            || one.next().map(|part| fed(part, |word, rule| feed(&mut window, word, rule))),
            || two.next().map(|part| fed(part, |word, rule| ring_feed(&mut ring, word, rule))),
        );
        table.row(case, "vt_window_feed", "1000 times", times);
        let times =
            against(|| asked(|_| words(black_box(&window))), || asked(|_| ring_words(black_box(&ring))));
        table.row(case, "vt_window_words", "1000 times", times);
        let times = against(
            || asked(|i| commits(black_box(&window), i)),
            || asked(|i| ring_commits(black_box(&ring), i)),
        );
        table.row(case, "vt_window_commits", "1000 times", times);
    }
}
