//! Timing of calls against each other: in turns, and the best of several.

use std::hint::black_box;
use std::time::{Duration, Instant};

const ROUNDS: usize = 30;
/// Calls that take long are timed in fewer rounds, until this time is over.
const LONG: Duration = Duration::from_millis(150);
const FEW_ROUNDS: usize = 5;
const BATCH: Duration = Duration::from_millis(2);

/// The shortest times of a call, in µs.
pub struct Times {
    pub library: f64,
    pub reference: f64,
    /// None where the fast code has no such call.
    pub fastest: Option<f64>,
}

/// A call that is timed so many times in a row.
type Side<'a> = &'a mut dyn FnMut(usize) -> Duration;

fn side<T>(mut call: impl FnMut() -> T) -> impl FnMut(usize) -> Duration {
    move |calls| {
        let start = Instant::now();
        for _ in 0..calls {
            black_box(call());
        }
        start.elapsed()
    }
}

/// How many calls take about the time of a batch.
fn batch(side: Side) -> usize {
    let mut calls = 1;
    while side(calls) < BATCH / 2 {
        calls *= 2;
    }
    calls
}

/// Times all sides in turns. The batches of all take about the same time, whatever a call takes, so that
/// other programs on the machine disturb no side more than another.
fn in_turns<const N: usize>(mut sides: [Side; N]) -> [f64; N] {
    let calls = sides.each_mut().map(|side| batch(side));
    let mut shortest = [f64::MAX; N];
    let start = Instant::now();
    for round in 0..ROUNDS {
        if round >= FEW_ROUNDS && start.elapsed() > LONG {
            break;
        }
        for ((side, calls), shortest) in sides.iter_mut().zip(calls).zip(&mut shortest) {
            *shortest = shortest.min(side(calls).as_secs_f64() * 1e6 / calls as f64);
        }
    }
    shortest
}

/// Times a call of the library and of the reference.
pub fn against<T, U>(library: impl FnMut() -> T, reference: impl FnMut() -> U) -> Times {
    let [library, reference] = in_turns([&mut side(library), &mut side(reference)]);
    Times { library, reference, fastest: None }
}

/// Times a call of the library, of the reference and of the fast code.
pub fn against_both<T, U, V>(
    library: impl FnMut() -> T,
    reference: impl FnMut() -> U,
    fast: impl FnMut() -> V,
) -> Times {
    let [library, reference, fastest] = in_turns([&mut side(library), &mut side(reference), &mut side(fast)]);
    Times { library, reference, fastest: Some(fastest) }
}
