//! Bytes made fewer, then smaller.

use super::{lower, parts};
use std::ops::Range;

/// A way to make bytes smaller.
#[derive(Clone, Debug)]
pub enum Step {
    /// Without these.
    Without(Range<usize>),
    /// Another value at a place.
    Value(usize, u8),
}

/// Among more bytes than these, single ones are left alone.
const FEW: usize = 512;

/// All steps to try, those that leave out most first.
pub fn steps(bytes: &[u8]) -> impl Iterator<Item = Step> + '_ {
    let least = bytes.len() / FEW;
    let fewer = parts(bytes.len()).filter(move |part| part.len() > least).map(Step::Without);
    let few = if least == 0 { bytes } else { &[] };
    let values =
        |(at, byte): (usize, &u8)| lower(u16::from(*byte)).map(move |value| Step::Value(at, value as u8));
    fewer.chain(few.iter().enumerate().flat_map(values))
}

/// The bytes after a step, if it can be made.
pub fn after(bytes: &[u8], step: &Step) -> Option<Vec<u8>> {
    let mut bytes = bytes.to_vec();
    match step {
        Step::Without(part) => {
            bytes.get(part.clone())?;
            bytes.drain(part.clone());
        }
        Step::Value(at, value) => *bytes.get_mut(*at)? = *value,
    }
    Some(bytes)
}
