//! What a run of calls covered: calls, refusals, answer words, kinds of patterns, terms, nodes and cases, the largest
//! graph.

use super::replies::Reply;
use crate::notation::{count, Form, Pattern, Piece, Sheet, Term, What};
use std::collections::BTreeMap;
use std::fmt;
use voltunnis::{Refusal, Word};
use voltunnis_generate::calls::{Call, Name, Role};
use voltunnis_generate::nodes::{Case, GraphNodes, Node};

/// How often each thing was met.
#[derive(Default)]
pub struct Coverage {
    compared: BTreeMap<Name, usize>,
    unknown: BTreeMap<Name, usize>,
    refusals: BTreeMap<Refusal, usize>,
    words: BTreeMap<Word, usize>,
    patterns: [usize; PATTERNS.len()],
    terms: [usize; TERMS.len()],
    nodes: [usize; NODES.len()],
    cases: [usize; CASES.len()],
    /// The nodes and bytes of the largest graph.
    largest: Option<(usize, usize)>,
}

/// The kinds of patterns, in the order of their records.
const PATTERNS: [&str; 8] =
    ["anything", "symbol", "range", "compound", "variable", "ranged variable", "series", "range on a gauge"];

/// The kinds of terms, in the order of their records.
const TERMS: [&str; 7] = ["unknown", "symbol", "number", "compound", "span", "never", "number on a gauge"];

/// The kinds of nodes, in the order of their records.
const NODES: [&str; 5] = ["fail", "suspend", "execute", "switch", "pair"];

/// The kinds of cases, in the order of their records; numbers of gauge 0, then those of others.
const CASES: [&str; 4] = ["symbols", "compound", "numbers", "numbers on a gauge"];

/// The question of a window's calls, which are not in the stream.
const WINDOW: u8 = 36;

/// Things of one sort, each with how often it was met.
pub struct Section {
    pub title: &'static str,
    pub counts: Vec<(String, usize)>,
}

impl Coverage {
    /// Counts a call to which both gave this reply.
    pub fn add(&mut self, call: &Call, reply: &Reply) {
        *self.compared.entry(call.name()).or_default() += 1;
        if let Err(refusal) = reply.result {
            *self.refusals.entry(refusal).or_default() += 1;
            return;
        }
        if let Some(word) = reply.word {
            *self.words.entry(word).or_default() += 1;
        }
        if let Some(sheet) = call.argument(Role::Sheet).and_then(|bytes| Sheet::read(bytes).ok()) {
            sheet.rules.iter().for_each(|rule| self.add_patterns(&rule.patterns));
        }
        if let Some(piece) = call.argument(Role::Piece).and_then(|bytes| Piece::read(bytes).ok()) {
            self.add_terms(&piece.terms);
        }
        let graph = match call.name() {
            Name::Build | Name::BuildOrdered => reply.buffer.as_deref(),
            _ => call.argument(Role::Graph),
        };
        let Some(bytes) = graph else { return };
        if let Some((graph, rest)) = GraphNodes::read(bytes) {
            self.largest = self.largest.max(Some((graph.nodes.len(), bytes.len() - rest.len())));
            graph.nodes.iter().for_each(|node| self.add_node(node));
        }
    }

    /// Counts a call that the program doesn't know.
    pub fn add_unknown(&mut self, call: &Call) {
        *self.unknown.entry(call.name()).or_default() += 1;
    }

    fn add_patterns(&mut self, patterns: &[Pattern]) {
        for pattern in patterns {
            self.patterns[match pattern.form {
                Form::Anything => 0,
                Form::Symbol(_) => 1,
                Form::Range(..) => 2,
                Form::Compound(..) => 3,
                Form::Variable(_) => 4,
                Form::Ranged(..) => 5,
                Form::Series(..) => 6,
                Form::Gauged(..) => 7,
            }] += 1;
            self.add_patterns(pattern.arguments());
        }
    }

    fn add_terms(&mut self, terms: &[Term]) {
        for term in terms {
            self.terms[match term.what {
                What::Unknown => 0,
                What::Symbol(_) => 1,
                What::Number(_) => 2,
                What::Compound(..) => 3,
                What::Between(..) => 4,
                What::Never => 5,
                What::Gauged(..) => 6,
            }] += 1;
            self.add_terms(term.arguments());
        }
    }

    fn add_node(&mut self, node: &Node) {
        let kind = match node {
            Node::Fail => 0,
            Node::Suspend => 1,
            Node::Execute(_) => 2,
            Node::Switch { cases, .. } => {
                for case in cases {
                    self.cases[match case {
                        Case::Symbols { .. } => 0,
                        Case::Compound { .. } => 1,
                        Case::Numbers { gauge: 0, .. } => 2,
                        Case::Numbers { .. } => 3,
                    }] += 1;
                }
                3
            }
            Node::Pair { .. } => 4,
        };
        self.nodes[kind] += 1;
    }

    /// How many calls were compared.
    pub fn compared(&self) -> usize {
        self.compared.values().sum()
    }

    /// How many calls the program doesn't know.
    pub fn unknown(&self) -> usize {
        self.unknown.values().sum()
    }

    /// The nodes and bytes of the largest graph, if there was one.
    pub fn largest(&self) -> Option<(usize, usize)> {
        self.largest
    }

    /// All that is counted.
    pub fn sections(&self) -> [Section; 8] {
        let of = |counts: &BTreeMap<Name, usize>| {
            Name::ALL.map(|name| (name.text().to_string(), counts.get(&name).copied().unwrap_or(0))).to_vec()
        };
        let words = [Word::Commit, Word::Execute, Word::Suspend, Word::Fail];
        let words = words.map(|word| (word.to_string(), self.words.get(&word).copied().unwrap_or(0)));
        let refusals = Refusal::all()
            .filter(|refusal| refusal.number() != WINDOW)
            .map(|refusal| (refusal.number().to_string(), self.refusals.get(&refusal).copied().unwrap_or(0)));
        let named = |names: &[&str], counts: &[usize]| {
            names.iter().map(|name| (*name).to_string()).zip(counts.iter().copied()).collect()
        };
        [
            Section { title: "calls", counts: of(&self.compared) },
            Section { title: "unknown", counts: of(&self.unknown) },
            Section { title: "answers", counts: words.to_vec() },
            Section { title: "refusals", counts: refusals.collect() },
            Section { title: "patterns", counts: named(&PATTERNS, &self.patterns) },
            Section { title: "terms", counts: named(&TERMS, &self.terms) },
            Section { title: "nodes", counts: named(&NODES, &self.nodes) },
            Section { title: "cases", counts: named(&CASES, &self.cases) },
        ]
    }
}

/// Items in lines that are not too long, the first line after a title.
fn wrapped(to: &mut fmt::Formatter, title: &str, items: &[String]) -> fmt::Result {
    const WIDTH: usize = 96;
    let mut line = format!("{title:<12}");
    for (at, item) in items.iter().enumerate() {
        let part = if at + 1 < items.len() { ", " } else { "" };
        if line.len() + item.len() > WIDTH {
            writeln!(to, "{}", line.trim_end())?;
            line = " ".repeat(12);
        }
        line += &format!("{item}{part}");
    }
    writeln!(to, "{line}")
}

/// What was met: each section's counts, and the largest graph.
impl fmt::Display for Coverage {
    fn fmt(&self, to: &mut fmt::Formatter) -> fmt::Result {
        for Section { title, counts } in self.sections() {
            let between = if title == "refusals" { ": " } else { " " };
            let met = counts.iter().filter(|(_, count)| *count > 0);
            let met: Vec<String> = met.map(|(name, count)| format!("{name}{between}{count}")).collect();
            if !met.is_empty() {
                wrapped(to, title, &met)?;
            }
        }
        match self.largest {
            Some((nodes, bytes)) => {
                writeln!(to, "{:<12}{}, {}", "largest", count(nodes, "node"), count(bytes, "byte"))
            }
            None => Ok(()),
        }
    }
}

/// What was never met, a line a section.
pub struct Never<'a>(pub &'a Coverage);

impl fmt::Display for Never<'_> {
    fn fmt(&self, to: &mut fmt::Formatter) -> fmt::Result {
        for Section { title, counts } in self.0.sections() {
            let mut never: Vec<String> =
                counts.into_iter().filter(|(_, count)| *count == 0).map(|(name, _)| name).collect();
            if let Some(first) = never.first_mut().filter(|_| title != "unknown") {
                first.insert_str(0, &format!("{title} "));
                wrapped(to, "never met", &never)?;
            }
        }
        Ok(())
    }
}
