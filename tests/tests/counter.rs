//! Random sheets and pieces, good and damaged: library and reference give the same result on every
//! call, and every refusal of a sheet, a piece and the plain answer is met.

use std::collections::BTreeMap;
use voltunnis_tests::both;
use voltunnis_tests::generate::{
    crowded::crowded,
    damage::{damaged, noise},
    pieces::piece,
    random::Random,
    sheets::sheet,
    stock::Stock,
    trees::piece_bytes,
};
use voltunnis_tests::results::{Refusal, Word};

const ROUNDS: usize = 50_000;

/// How often each refusal's number was given, 0 for accepted, and each answer's word.
#[derive(Default)]
struct Count {
    calls: usize,
    refusals: BTreeMap<Refusal, usize>,
    words: [usize; 5],
}

impl Count {
    fn add<T>(&mut self, result: Result<T, Refusal>) -> Option<T> {
        self.calls += 1;
        *self.refusals.entry(*result.as_ref().err().unwrap_or(&0)).or_default() += 1;
        result.ok()
    }
}

/// A sheet and a piece: good, damaged on one side or both, or noise.
fn inputs(random: &mut Random) -> (Vec<u8>, Vec<u8>) {
    let tree = if random.percent(10) { crowded(random) } else { sheet(random) };
    let sheet = tree.bytes();
    let piece = piece_bytes(&piece(random, &tree, Stock::FULL));
    match random.below(10) {
        0 | 1 => (damaged(random, &sheet), piece),
        2 | 3 => (sheet, damaged(random, &piece)),
        4 => (noise(random, 0x10), noise(random, 0x11)),
        _ => (sheet, piece),
    }
}

#[test]
fn library_and_reference_agree_on_every_call() {
    let mut random = Random::new(0x636f_696e);
    let mut count = Count::default();
    let mut tests = [0; 65];
    for _ in 0..ROUNDS {
        let (sheet, piece) = inputs(&mut random);
        if let Some(size) = count.add(both::check_sheet(&sheet)) {
            tests[usize::from(size.tests)] += 1;
        }
        count.add(both::check_piece(&piece));
        if let Some(plain) = count.add(both::plain(&sheet, &piece)) {
            count.words[plain.word as usize] += 1;
        }
    }
    println!("{} calls, by refusal {:?}, by word {:?}", count.calls, count.refusals, count.words);
    println!("accepted sheets by number of tests {tests:?}");
    assert!(count.calls >= 100_000);
    for refusal in (1..=17).chain([20, 32]) {
        let calls = count.refusals.get(&refusal).copied().unwrap_or(0);
        assert!(calls >= 20, "refusal {refusal}: {calls} calls");
    }
    for word in [Word::Commit, Word::Execute, Word::Suspend, Word::Fail] {
        assert!(count.words[word as usize] >= 500, "{}: {} answers", word.name(), count.words[word as usize]);
    }
    assert!(tests[60..].iter().all(|sheets| *sheets >= 20), "too few sheets near 64 tests");
}
