//! Names of ids, `name silver = 17`, and of gauges, `gauge roller = 1`.

use super::span::Span;

/// A declared name.
#[derive(Clone, Debug)]
pub struct Name {
    pub name: String,
    /// The id, or the gauge.
    pub number: u16,
    /// Where it is declared.
    pub at: Span,
}

/// Names of one sort, in the order of their declarations. One number may have several; it is printed by the first.
#[derive(Clone, Debug, Default)]
pub struct Declared(Vec<Name>);

impl Declared {
    /// Declares a name.
    pub fn add(&mut self, name: String, number: u16, at: Span) {
        self.0.push(Name { name, number, at });
    }

    /// Adds those of other names that are not declared here.
    fn extend(&mut self, more: &Declared) {
        for other in &more.0 {
            if self.get(&other.name).is_none() {
                self.0.push(other.clone());
            }
        }
    }

    /// The declared name, if it is one.
    pub fn get(&self, name: &str) -> Option<&Name> {
        self.0.iter().find(|known| known.name == name)
    }

    /// The name by which a number is printed, if it has one.
    fn first(&self, number: u16) -> Option<&Name> {
        self.0.iter().find(|known| known.number == number)
    }

    /// The lines, each beginning with this word, that declare the names by which these numbers are printed.
    fn declarations(&self, word: &str, mut numbers: Vec<u16>) -> String {
        numbers.sort_unstable();
        numbers.dedup();
        let named = numbers.iter().filter_map(|number| self.first(*number));
        named.map(|known| format!("{word} {} = {}\n", known.name, known.number)).collect()
    }

    /// The declared name that is closest to one that is not, if one is close.
    pub fn closest(&self, wrong: &str) -> Option<&str> {
        let measured = self.0.iter().map(|known| (distance(&known.name, wrong), known.name.as_str()));
        let (far, name) = measured.min_by_key(|(far, _)| *far)?;
        (far <= 1 + wrong.chars().count() / 4).then_some(name)
    }

    /// A number that has no name yet, for a suggestion: the lowest above all that have one, up to this one.
    pub fn free(&self, most: u16) -> u16 {
        self.0.iter().map(|known| known.number).max().map_or(1, |highest| highest.saturating_add(1).min(most))
    }
}

/// The names that hold in a text: those of ids, of symbols and compounds alike, and those of gauges.
#[derive(Clone, Debug, Default)]
pub struct Names {
    pub ids: Declared,
    pub gauges: Declared,
}

/// The ids and the gauges that stand in something.
#[derive(Clone, Debug, Default)]
pub struct Used {
    pub ids: Vec<u16>,
    pub gauges: Vec<u16>,
}

impl Names {
    /// Adds those of other names that are not declared here.
    pub fn extend(&mut self, more: &Names) {
        self.ids.extend(&more.ids);
        self.gauges.extend(&more.gauges);
    }

    /// The id as it is printed: its first name, or `#17`.
    pub fn show(&self, id: u16) -> String {
        self.ids.first(id).map_or_else(|| format!("#{id}"), |known| known.name.clone())
    }

    /// A series as it is printed: both its ends, also where they are one id.
    pub fn series(&self, low: u16, high: u16) -> String {
        format!("{}..{}", self.show(low), self.show(high))
    }

    /// A gauge as it is printed after a number: its first name, or its own number: `@roller`, `@1`.
    pub fn on(&self, gauge: u8) -> String {
        let named = self.gauges.first(u16::from(gauge));
        named.map_or_else(|| format!("@{gauge}"), |known| format!("@{}", known.name))
    }

    /// The lines that declare the names by which these are printed.
    pub fn declarations(&self, used: Used) -> String {
        self.ids.declarations("name", used.ids) + &self.gauges.declarations("gauge", used.gauges)
    }
}

/// How many letters must be put in, taken out or changed to come from one word to the other.
pub fn distance(a: &str, b: &str) -> usize {
    let b: Vec<char> = b.chars().collect();
    let mut row: Vec<usize> = (0..=b.len()).collect();
    for (i, from) in a.chars().enumerate() {
        let mut corner = row[0];
        row[0] = i + 1;
        for (j, to) in b.iter().enumerate() {
            let change = corner + usize::from(from != *to);
            corner = row[j + 1];
            row[j + 1] = change.min(row[j] + 1).min(corner + 1);
        }
    }
    row[b.len()]
}
