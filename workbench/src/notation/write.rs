//! The bytes that spell sheets, pieces and graphs.

use super::tree::{Case, Form, Graph, Kind, Pattern, Piece, Rule, Sheet, Term, What};

/// Appends a wide field: two bytes, high byte first.
fn wide(to: &mut Vec<u8>, field: u16) {
    to.extend(field.to_be_bytes());
}

impl Pattern {
    /// Appends the record of this pattern alone, without those of its arguments.
    pub fn write_record(&self, to: &mut Vec<u8>) {
        match &self.form {
            Form::Anything => to.push(0x20),
            Form::Symbol(id) => {
                to.push(0x21);
                wide(to, *id);
            }
            Form::Series(low, high) => {
                to.push(0x26);
                wide(to, *low);
                wide(to, *high);
            }
            Form::Range(low, high) => {
                to.push(0x22);
                wide(to, *low);
                wide(to, *high);
            }
            Form::Compound(id, arguments) => {
                to.push(0x23);
                wide(to, *id);
                to.push(arguments.len() as u8);
            }
            Form::Variable(number) => to.extend([0x24, *number]),
            Form::Ranged(number, low, high) => {
                to.extend([0x25, *number]);
                wide(to, *low);
                wide(to, *high);
            }
            Form::Gauged(gauge, low, high) => {
                to.extend([0x27, *gauge]);
                wide(to, *low);
                wide(to, *high);
            }
        }
    }

    /// The patterns below it.
    pub fn arguments(&self) -> &[Pattern] {
        match &self.form {
            Form::Compound(_, arguments) => arguments,
            _ => &[],
        }
    }

    /// Appends the pattern's records in prefix order.
    pub fn write(&self, to: &mut Vec<u8>) {
        self.write_record(to);
        self.arguments().iter().for_each(|argument| argument.write(to));
    }
}

impl Rule {
    /// Appends the rule's records in prefix order.
    pub fn write(&self, to: &mut Vec<u8>) {
        self.patterns.iter().for_each(|pattern| pattern.write(to));
    }
}

impl Sheet {
    /// The sheet's bytes.
    pub fn bytes(&self) -> Vec<u8> {
        let mut to = vec![0x10, self.arity, self.rules.len() as u8];
        self.rules.iter().for_each(|rule| rule.write(&mut to));
        to
    }
}

impl Term {
    /// Appends the record of this term alone, without those of its arguments.
    pub fn write_record(&self, to: &mut Vec<u8>) {
        match &self.what {
            What::Unknown => to.push(0x30),
            What::Never => to.push(0x35),
            What::Symbol(id) => {
                to.push(0x31);
                wide(to, *id);
            }
            What::Number(value) => {
                to.push(0x32);
                wide(to, *value);
            }
            What::Between(low, high) => {
                to.push(0x34);
                wide(to, *low);
                wide(to, *high);
            }
            What::Compound(id, arguments) => {
                to.push(0x33);
                wide(to, *id);
                to.push(arguments.len() as u8);
            }
            What::Gauged(gauge, value) => {
                to.extend([0x36, *gauge]);
                wide(to, *value);
            }
        }
    }

    /// The terms below it.
    pub fn arguments(&self) -> &[Term] {
        match &self.what {
            What::Compound(_, arguments) => arguments,
            _ => &[],
        }
    }

    /// Appends the term's records in prefix order.
    pub fn write(&self, to: &mut Vec<u8>) {
        self.write_record(to);
        self.arguments().iter().for_each(|argument| argument.write(to));
    }
}

impl Piece {
    /// The piece's bytes.
    pub fn bytes(&self) -> Vec<u8> {
        let mut to = vec![0x11, self.terms.len() as u8];
        self.terms.iter().for_each(|term| term.write(&mut to));
        to
    }
}

impl Kind {
    /// Appends the node's record and those of its cases.
    pub fn write(&self, to: &mut Vec<u8>) {
        match self {
            Kind::Fail => to.push(0x40),
            Kind::Suspend => to.push(0x41),
            Kind::Execute(rule) => to.extend([0x42, *rule]),
            Kind::Switch { place, neither, unknown, cases } => {
                to.push(0x43);
                wide(to, *place);
                wide(to, cases.len() as u16);
                wide(to, *neither);
                wide(to, *unknown);
                cases.iter().for_each(|(case, node)| write_case(to, *case, *node));
            }
            Kind::Pair { p, q, no, other } => {
                to.push(0x47);
                [p, q, no, other].into_iter().for_each(|field| wide(to, *field));
            }
        }
    }
}

fn write_case(to: &mut Vec<u8>, case: Case, node: u16) {
    match case {
        Case::Symbols(low, high) => {
            to.push(0x44);
            wide(to, low);
            wide(to, high);
        }
        Case::Compound(id, arity) => {
            to.push(0x45);
            wide(to, id);
            to.push(arity);
        }
        Case::Numbers(gauge, low, high) => {
            to.extend([0x46, gauge]);
            wide(to, low);
            wide(to, high);
        }
    }
    wide(to, node);
}

impl Graph {
    /// The graph's bytes.
    pub fn bytes(&self) -> Vec<u8> {
        let mut to = vec![0x12, self.arity, self.rules];
        wide(&mut to, self.nodes.len() as u16);
        self.nodes.iter().for_each(|node| node.kind.write(&mut to));
        to
    }
}
