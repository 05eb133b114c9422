//! The tidy form of an accepted sheet: its records one by one, as their tree keeps its shape. A rule in which
//! nothing changes is copied.

use super::records::{self, put_wide, Pattern};
use super::variables::Variables;
use crate::results::Refusal;

/// How many bytes a record has.
#[inline(always)]
fn length(record: Pattern) -> usize {
    match record {
        Pattern::Anything => 1,
        Pattern::Symbol(_) => 3,
        Pattern::Range(..) | Pattern::Series(..) => 5,
        Pattern::Compound(..) => 4,
        Pattern::Variable(_) => 2,
        Pattern::Ranged(..) | Pattern::Gauged(..) => 6,
    }
}

/// The tidy form of a record that is no variable's: a series of one symbol is that symbol, a range on gauge 0 has no
/// gauge.
#[inline(always)]
fn alone(record: Pattern) -> Pattern {
    match record {
        Pattern::Series(low, high) if low == high => Pattern::Symbol(low),
        Pattern::Gauged(0, low, high) => Pattern::Range(low, high),
        _ => record,
    }
}

/// Meets the variables of a rule; gives how many bytes its tidy form has.
fn measure(rule: &[u8], variables: &mut Variables) -> usize {
    variables.clear();
    let (mut at, mut needed) = (0, 0);
    while let Some(record) = records::pattern(&rule[at..]) {
        match record {
            Pattern::Variable(number) => variables.meet(number, 0),
            Pattern::Ranged(number, low, high) => variables.meet_ranged(number, 0, low, high),
            _ => needed += length(alone(record)),
        }
        at += length(record);
    }
    let mut left = variables.met();
    while left != 0 {
        let number = left.trailing_zeros() as usize;
        left &= left - 1;
        needed += match (variables.count(number), variables.is_ranged(number)) {
            (1, false) => 1,
            (1, true) => 5,
            (places, false) => 2 * places,
            (places, true) => 6 * places,
        };
    }
    needed
}

/// The new numbers of a rule's repeated variables.
struct Numbers {
    new: [u8; 16],
    given: u8,
}

impl Numbers {
    #[inline(always)]
    fn none() -> Self {
        Numbers { new: [u8::MAX; 16], given: 0 }
    }

    /// The number of a variable, the next one if it has none.
    #[inline(always)]
    fn of(&mut self, number: usize) -> u8 {
        if self.new[number] == u8::MAX {
            self.new[number] = self.given;
            self.given += 1;
        }
        self.new[number]
    }
}

/// The record of a variable.
#[inline(always)]
fn tidied(variables: &Variables, numbers: &mut Numbers, number: usize) -> Pattern {
    let (low, high) = (variables.low(number), variables.high(number));
    match (variables.count(number), variables.is_ranged(number)) {
        (1, false) => Pattern::Anything,
        (1, true) => Pattern::Range(low, high),
        (_, false) => Pattern::Variable(numbers.of(number)),
        (_, true) => Pattern::Ranged(numbers.of(number), low, high),
    }
}

/// Writes the record of a variable, a symbol or a range on gauge 0; gives how many bytes it has.
#[inline(always)]
fn put(to: &mut [u8], record: Pattern) -> usize {
    let length = length(record);
    let to = &mut to[..length];
    match record {
        Pattern::Symbol(id) => {
            to[0] = 0x21;
            put_wide(to, 1, id);
        }
        Pattern::Range(low, high) => {
            to[0] = 0x22;
            put_wide(to, 1, low);
            put_wide(to, 3, high);
        }
        Pattern::Variable(number) => to.copy_from_slice(&[0x24, number]),
        Pattern::Ranged(number, low, high) => {
            to[0] = 0x25;
            to[1] = number;
            put_wide(to, 2, low);
            put_wide(to, 4, high);
        }
        _ => to[0] = 0x20,
    }
    length
}

/// Writes a rule whose variables were met, and whose tidy form has so many bytes; gives how many were written. Without
/// variables a rule of the same length stays as it is.
fn put_rule(rule: &[u8], variables: &Variables, needed: usize, to: &mut [u8]) -> usize {
    if variables.met() == 0 && needed == rule.len() {
        to[..rule.len()].copy_from_slice(rule);
        return rule.len();
    }
    let mut numbers = Numbers::none();
    let (mut at, mut end) = (0, 0);
    while let Some(record) = records::pattern(&rule[at..]) {
        let used = length(record);
        match record {
            Pattern::Variable(number) | Pattern::Ranged(number, ..) => {
                let record = tidied(variables, &mut numbers, usize::from(number & 15));
                end += put(&mut to[end..], record);
            }
            Pattern::Series(low, high) if low == high => end += put(&mut to[end..], Pattern::Symbol(low)),
            Pattern::Gauged(0, low, high) => end += put(&mut to[end..], Pattern::Range(low, high)),
            _ => {
                to[end..end + used].copy_from_slice(&rule[at..at + used]);
                end += used;
            }
        }
        at += used;
    }
    end
}

/// Writes the tidy form of a sheet whose rules begin at these bytes. Question 31: does it fit the lent buffer?
pub fn write(sheet: &[u8], starts: &[u32], buffer: &mut [u8]) -> Result<u32, Refusal> {
    let rule = |at: usize| {
        let end = starts.get(at + 1).map_or(sheet.len(), |end| *end as usize);
        &sheet[starts[at] as usize..end]
    };
    let mut variables = Variables::none();
    let needed = 3 + (0..starts.len()).map(|at| measure(rule(at), &mut variables)).sum::<usize>();
    let buffer = buffer.get_mut(..needed).ok_or(31)?;
    buffer[..3].copy_from_slice(&sheet[..3]);
    let mut end = 3;
    for at in 0..starts.len() {
        let needed = measure(rule(at), &mut variables);
        end += put_rule(rule(at), &variables, needed, &mut buffer[end..]);
    }
    Ok(needed as u32)
}
