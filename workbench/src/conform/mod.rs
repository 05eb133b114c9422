//! `vt conform`: another maker's program compared with the library, call by call, on a seeded stream.

mod coverage;
mod difference;
mod program;
mod progress;
mod replies;
mod words;

pub use coverage::{Coverage, Never, Section};
pub use difference::{differs, Difference, Smallest};
pub use program::{Heard, Program};
pub use replies::{graph_in, reply, Reply};
pub use words::words;

use progress::Progress;
use std::io;
use std::time::Duration;
use voltunnis_generate::calls::Call;
use voltunnis_generate::stream::Stream;

/// How a run ended.
pub struct Outcome {
    pub coverage: Coverage,
    pub difference: Option<Difference>,
}

/// What is to be run.
pub struct Run {
    pub words: Vec<String>,
    pub seed: u64,
    pub count: usize,
    pub timeout: Duration,
}

impl Outcome {
    /// Whether calls were compared, if there were any, and all were equal.
    pub fn is_equal(&self) -> bool {
        self.difference.is_none() && (self.coverage.compared() > 0 || self.coverage.unknown() == 0)
    }
}

/// Of the calls before one that differs, so many of the last are looked at.
const MEMORY: usize = 1_000;

impl Run {
    /// The calls, without end.
    fn calls(&self) -> impl Iterator<Item = Call> {
        Stream::new(self.seed, graph_in)
    }

    /// Compares the program with the library up to the first difference.
    pub fn compare(&self) -> io::Result<Outcome> {
        let mut program = Program::start(self.words.clone(), self.timeout, false)?;
        let mut progress = Progress::new(self.count);
        let mut coverage = Coverage::default();
        for (at, call) in self.calls().take(self.count).enumerate() {
            progress.at(at);
            let heard = program.ask(call.to_string());
            if differs(&call, &heard) {
                progress.clear();
                let start = || Program::start(self.words.clone(), self.timeout, true);
                let before = || self.calls().take(at).skip(at.saturating_sub(MEMORY)).collect();
                let difference = Difference::new(at + 1, (call, heard), &start, &before);
                return Ok(Outcome { coverage, difference: Some(difference) });
            }
            match heard {
                Heard::Unknown => coverage.add_unknown(&call),
                _ => coverage.add(&call, &reply(&call)),
            }
        }
        progress.clear();
        program.finish();
        Ok(Outcome { coverage, difference: None })
    }
}
