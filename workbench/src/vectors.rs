//! The stream of calls with the library's replies as text, and such a text checked.

use crate::conform::{graph_in, reply};
use std::io::{self, Write};
use voltunnis_generate::calls::{Call, Fault};
use voltunnis_generate::stream::Stream;

/// Writes so many calls of a seed, each with the library's reply.
pub fn write(seed: u64, count: usize, to: &mut dyn Write) -> io::Result<()> {
    writeln!(to, "# vt vectors --seed {seed} --count {count}")?;
    for call in Stream::new(seed, graph_in).take(count) {
        writeln!(to, "{call}\n{}", reply(&call))?;
    }
    Ok(())
}

/// What a check found.
#[derive(Debug, Default, PartialEq, Eq)]
pub struct Checked {
    /// How many replies are the library's.
    pub equal: usize,
    /// How many calls the library doesn't know.
    pub unknown: usize,
    /// The other replies: the line of the call, what the text says, and what the library replies.
    pub differ: Vec<(usize, String, String)>,
}

/// Makes every call of a text again. A line that can't be read ends it: which, and why.
///
/// ```
/// use voltunnis_workbench::vectors::check;
///
/// let checked = check("# a comment\ncheck_piece 110130\nok 1\ncheck_piece -\nrefused 13\n").unwrap();
/// assert_eq!(checked.equal, 1);
/// assert_eq!(checked.differ, [(4, "refused 13".into(), "refused 12".into())]);
/// assert_eq!(check("plain 10").unwrap_err(), (1, "the reply to this call is missing".into()));
/// ```
pub fn check(text: &str) -> Result<Checked, (usize, String)> {
    let mut checked = Checked::default();
    let is_said = |(_, line): &(usize, &str)| !line.starts_with('#') && !line.trim().is_empty();
    let mut lines = (1..).zip(text.lines()).filter(is_said);
    while let Some((at, line)) = lines.next() {
        let Some((_, said)) = lines.next() else {
            return Err((at, "the reply to this call is missing".into()));
        };
        match Call::read(line) {
            Ok(call) => match reply(&call).to_string() {
                reply if reply == said.trim_end() => checked.equal += 1,
                reply => checked.differ.push((at, said.into(), reply)),
            },
            Err(Fault::Unknown(_)) => checked.unknown += 1,
            Err(fault) => return Err((at, fault.to_string())),
        }
    }
    Ok(checked)
}
