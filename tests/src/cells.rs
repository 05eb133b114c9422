//! What a feed does to the cells of a window, whatever they hold: a port of the definitions in
//! crates/window/specs/Cells.antt, function by function.

use crate::results::Refusal;
use crate::window::Window;

const RING: usize = 70;
const FULL: u16 = 1000;

/// An answer as it is fed.
#[derive(Clone, Copy)]
struct Given {
    word: u16,
    rule: u16,
}

impl Given {
    fn is_commit(self) -> bool {
        self.word == 1
    }

    fn is_taken(self) -> bool {
        let ruled = self.word == 1 || self.word == 2;
        let ruleless = self.word == 3 || self.word == 4;
        ruled && (1..=64).contains(&self.rule) || ruleless && self.rule == 0
    }
}

fn moved(enters: bool, n: u16, count: u16) -> u16 {
    let (count, n) = (u32::from(count), u32::from(n));
    (if enters { (count + n) % 65536 } else { (count + (65536 - n)) % 65536 }) as u16
}

fn counted(enters: bool, given: Given, cells: &mut Window) {
    let word = usize::from(1 + given.word);
    cells[word] = moved(enters, 1, cells[word]);
    let rule = usize::from(5 + given.rule);
    cells[rule] = moved(enters, u16::from(given.is_commit()), cells[rule]);
}

fn with_room(next: usize, cells: &mut Window) {
    if cells[1] < FULL {
        cells[1] += 1;
        return;
    }
    let code = cells[RING + next];
    counted(false, Given { word: code / 256, rule: code % 256 }, cells);
}

/// Feeds an answer to these cells.
pub fn feed(cells: &mut Window, word: u8, rule: u8) -> Result<(), Refusal> {
    let given = Given { word: word.into(), rule: rule.into() };
    if !given.is_taken() {
        return Err(36);
    }
    let next = if cells[0] < FULL { usize::from(cells[0]) } else { 0 };
    with_room(next, cells);
    cells[RING + next] = given.word * 256 + given.rule;
    cells[0] = if next < 999 { next as u16 + 1 } else { 0 };
    counted(true, given, cells);
    Ok(())
}

/// The commits of a rule in these cells.
pub fn commits(cells: &Window, rule: u8) -> u16 {
    match rule {
        1..=64 => cells[usize::from(5 + rule)],
        _ => 0,
    }
}
