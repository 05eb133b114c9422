//! How often each thing was met in a test, so that none is left out unseen.

use std::collections::BTreeMap;

/// What was met, by its name.
#[derive(Default)]
pub struct Count(BTreeMap<String, usize>);

impl Count {
    pub fn met(&mut self, what: impl ToString) {
        *self.0.entry(what.to_string()).or_default() += 1;
    }

    /// Prints all that was met.
    pub fn print(&self) {
        println!("{:?}", self.0);
    }

    /// Each of these was met so often.
    #[track_caller]
    pub fn often(&self, least: usize, wanted: impl IntoIterator<Item = impl ToString>) {
        for what in wanted {
            let what = what.to_string();
            let times = self.0.get(&what).copied().unwrap_or(0);
            assert!(times >= least, "{what}: {times} times, fewer than {least}");
        }
    }
}
