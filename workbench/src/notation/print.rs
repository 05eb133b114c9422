//! Sheets and pieces as text.

use super::names::{Names, Used};
use super::tree::{Form, Pattern, Piece, Rule, Sheet, Term, What};

/// The names of variables that are numbered by first appearance.
const LETTERS: [&str; 16] = ["X", "Y", "Z", "U", "W", "A", "B", "C", "D", "E", "F", "G", "H", "I", "J", "K"];

/// A number or a range: `180`, `180..190`.
pub fn range(low: u16, high: u16) -> String {
    match low == high {
        true => low.to_string(),
        false => format!("{low}..{high}"),
    }
}

/// Numbers of a gauge from low to high, where gauge 0 needs no name: `180..190`, `180..190@roller`.
pub fn numbers(gauge: u8, low: u16, high: u16, names: &Names) -> String {
    match gauge {
        0 => range(low, high),
        _ => range(low, high) + &names.on(gauge),
    }
}

/// Items in parentheses.
fn list(items: impl Iterator<Item = String>) -> String {
    format!("({})", items.collect::<Vec<_>>().join(", "))
}

/// The variables of a rule in the order of their first appearance.
fn variables(patterns: &[Pattern], to: &mut Vec<u8>) {
    for pattern in patterns {
        match &pattern.form {
            Form::Variable(number) | Form::Ranged(number, ..) if !to.contains(number) => to.push(*number),
            Form::Compound(_, arguments) => variables(arguments, to),
            _ => {}
        }
    }
}

/// How the variables of a rule are written: by letters if they are numbered 0, 1, 2 and so on by first
/// appearance, else by their numbers.
struct Letters(bool);

impl Letters {
    fn of(rule: &Rule) -> Letters {
        let mut met = Vec::new();
        variables(&rule.patterns, &mut met);
        Letters(
            met.len() <= LETTERS.len()
                && met.iter().enumerate().all(|(at, number)| at == usize::from(*number)),
        )
    }

    fn show(&self, number: u8) -> String {
        match LETTERS.get(usize::from(number)) {
            Some(letter) if self.0 => (*letter).into(),
            _ => format!("V{number}"),
        }
    }
}

fn pattern(pattern: &Pattern, names: &Names, letters: &Letters) -> String {
    match &pattern.form {
        Form::Anything => "_".into(),
        Form::Symbol(id) => names.show(*id),
        Form::Series(low, high) => names.series(*low, *high),
        Form::Range(low, high) => range(*low, *high),
        Form::Compound(id, arguments) => {
            names.show(*id) + &list(arguments.iter().map(|argument| self::pattern(argument, names, letters)))
        }
        Form::Variable(number) => letters.show(*number),
        Form::Ranged(number, low, high) => format!("{}:{}", letters.show(*number), range(*low, *high)),
        Form::Gauged(gauge, low, high) => range(*low, *high) + &names.on(*gauge),
    }
}

/// Notes the ids and gauges that stand in patterns.
fn note(patterns: &[Pattern], to: &mut Used) {
    for pattern in patterns {
        match &pattern.form {
            Form::Symbol(id) => to.ids.push(*id),
            Form::Series(low, high) => to.ids.extend([low, high]),
            Form::Compound(id, arguments) => {
                to.ids.push(*id);
                note(arguments, to);
            }
            Form::Gauged(gauge, ..) => to.gauges.push(u16::from(*gauge)),
            Form::Anything | Form::Range(..) | Form::Variable(_) | Form::Ranged(..) => {}
        }
    }
}

impl Rule {
    /// The rule's patterns as text, by these names.
    pub fn print(&self, names: &Names) -> String {
        let letters = Letters::of(self);
        list(self.patterns.iter().map(|pattern| self::pattern(pattern, names, &letters)))
    }
}

impl Sheet {
    /// The sheet as text, by these names, of which those that are used are declared.
    pub fn print(&self, names: &Names) -> String {
        let mut used = Used::default();
        self.rules.iter().for_each(|rule| note(&rule.patterns, &mut used));
        let mut text = format!("sheet {}\n{}", self.arity, names.declarations(used));
        let width = self.rules.len().to_string().len();
        for (at, rule) in self.rules.iter().enumerate() {
            text += &format!("{:>width$}: {}\n", at + 1, rule.print(names));
        }
        text
    }
}

impl Term {
    /// The term as text, by these names.
    pub fn print(&self, names: &Names) -> String {
        match &self.what {
            What::Unknown => "?".into(),
            What::Never => "!".into(),
            What::Symbol(id) => names.show(*id),
            What::Number(value) => value.to_string(),
            What::Between(low, high) => format!("{low}..{high}?"),
            What::Gauged(gauge, value) => format!("{value}{}", names.on(*gauge)),
            What::Compound(id, arguments) => {
                names.show(*id) + &list(arguments.iter().map(|argument| argument.print(names)))
            }
        }
    }
}

impl Piece {
    /// The piece as text, by these names.
    pub fn print(&self, names: &Names) -> String {
        list(self.terms.iter().map(|term| term.print(names)))
    }

    /// Notes the ids and gauges that stand in it.
    pub fn note(&self, to: &mut Used) {
        fn below(terms: &[Term], to: &mut Used) {
            for term in terms {
                match &term.what {
                    What::Symbol(id) | What::Compound(id, _) => to.ids.push(*id),
                    What::Gauged(gauge, _) => to.gauges.push(u16::from(*gauge)),
                    What::Unknown | What::Never | What::Number(_) | What::Between(..) => {}
                }
                below(term.arguments(), to);
            }
        }
        below(&self.terms, to);
    }
}
