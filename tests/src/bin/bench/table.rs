//! The table of times, a row printed as soon as it is timed; and what the rows of each call say together.

use crate::timing::Times;
use voltunnis_tests::results::Refusal;

/// What a result says in the table.
pub fn outcome<T>(result: &Result<T, Refusal>) -> String {
    match result {
        Ok(_) => "accepted".into(),
        Err(refusal) => format!("refused {refusal}"),
    }
}

/// The library's time against the fastest in one case.
struct Ratio {
    case: &'static str,
    ratio: f64,
}

/// The calls in the order of their first rows, each with its ratios to the fastest.
#[derive(Default)]
pub struct Table {
    calls: Vec<(&'static str, Vec<Ratio>)>,
}

impl Table {
    /// The table without rows, its head printed.
    pub fn new() -> Table {
        println!(
            "| case | call | result | library, µs | reference, µs | fastest, µs | library/reference | \
             library/fastest |"
        );
        println!("|---|---|---|---|---|---|---|---|");
        Table::default()
    }

    pub fn row(&mut self, case: &'static str, call: &'static str, outcome: &str, times: Times) {
        let Times { library, reference, fastest } = times;
        let to_reference = library / reference;
        let Some(fastest) = fastest else {
            return println!(
                "| {case} | {call} | {outcome} | {library:.3} | {reference:.3} | | {to_reference:.2} | |"
            );
        };
        let to_fastest = library / fastest;
        println!(
            "| {case} | {call} | {outcome} | {library:.3} | {reference:.3} | {fastest:.3} | \
             {to_reference:.2} | {to_fastest:.2} |"
        );
        self.note(call, Ratio { case, ratio: to_fastest });
    }

    fn note(&mut self, call: &'static str, ratio: Ratio) {
        match self.calls.iter_mut().find(|(known, _)| *known == call) {
            Some((_, ratios)) => ratios.push(ratio),
            None => self.calls.push((call, vec![ratio])),
        }
    }

    /// Prints for each call the geometric mean and the worst of its ratios to the fastest.
    pub fn print_means(&self) {
        println!("\n| call | rows | library/fastest, geometric mean | worst | in the case |");
        println!("|---|---|---|---|---|");
        for (call, ratios) in &self.calls {
            let sum: f64 = ratios.iter().map(|row| row.ratio.ln()).sum();
            let mean = (sum / ratios.len() as f64).exp();
            let worst = ratios.iter().max_by(|a, b| a.ratio.total_cmp(&b.ratio));
            if let Some(Ratio { case, ratio }) = worst {
                println!("| {call} | {} | {mean:.2} | {ratio:.2} | {case} |", ratios.len());
            }
        }
    }
}
