//! Lists made shorter.

use super::parts;

/// The fewest items that still show what `shows` looks for, which these do, in their order and by at most so
/// many questions.
pub fn fewest<T: Clone>(items: &[T], shows: &mut dyn FnMut(&[T]) -> bool, mut questions: usize) -> Vec<T> {
    let mut kept = items.to_vec();
    loop {
        let shorter = parts(kept.len()).find_map(|part| {
            let mut fewer = kept.clone();
            fewer.drain(part);
            let asked = questions > 0;
            questions -= usize::from(asked);
            (asked && shows(&fewer)).then_some(fewer)
        });
        match shorter {
            Some(fewer) => kept = fewer,
            None => return kept,
        }
    }
}
