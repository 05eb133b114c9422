//! A bar that grows while calls are made, where a terminal looks on.

use std::io::{IsTerminal, Write};

/// How wide the bar is.
const WIDTH: usize = 40;

/// The bar of a run of so many calls.
pub struct Progress {
    count: usize,
    /// What stands on the terminal; none where no terminal looks on.
    shown: Option<String>,
}

impl Progress {
    /// A bar on standard error, if that is a terminal.
    pub fn new(count: usize) -> Progress {
        Progress { count, shown: std::io::stderr().is_terminal().then(String::new) }
    }

    /// Shows that so many calls are made.
    pub fn at(&mut self, made: usize) {
        let Some(shown) = &mut self.shown else { return };
        let line = bar(made, self.count);
        // A terminal that takes no more is no reason to stop.
        if *shown != line {
            let _ = write!(std::io::stderr(), "\r{line}");
            *shown = line;
        }
    }

    /// Takes the bar away.
    pub fn clear(&mut self) {
        if let Some(shown) = self.shown.as_mut().filter(|shown| !shown.is_empty()) {
            let _ = write!(std::io::stderr(), "\r{:width$}\r", "", width = shown.len());
            shown.clear();
        }
    }
}

/// The bar's text: a hundredth of the calls changes it.
fn bar(made: usize, count: usize) -> String {
    let hundredths = made.saturating_mul(100).checked_div(count).unwrap_or(100).min(100);
    let full = hundredths * WIDTH / 100;
    format!("[{}{}] {hundredths:>3} % of {count} calls", "#".repeat(full), ".".repeat(WIDTH - full))
}

#[cfg(test)]
mod tests {
    use super::bar;

    #[test]
    fn the_bar_grows() {
        assert_eq!(bar(0, 10), "[........................................]   0 % of 10 calls");
        assert_eq!(bar(5, 10), "[####################....................]  50 % of 10 calls");
        assert_eq!(bar(10, 10), "[########################################] 100 % of 10 calls");
        assert_eq!(bar(0, 0), "[########################################] 100 % of 0 calls");
    }
}
