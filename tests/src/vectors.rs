//! The shared vectors: sheets with their graphs, pieces and the lines that the listing says.

use crate::bytes::from_hex;
use crate::results::{SheetSize, Word};

/// The vectors' text.
const REPORTS: &str = include_str!("../vectors/reports.txt");

/// A sheet, its graph, and what is said about its pieces.
#[derive(Default)]
pub struct Vector {
    pub name: String,
    pub sheet: Vec<u8>,
    pub graph: Vec<u8>,
    /// The listing's first line.
    pub sheet_line: String,
    pub pieces: Vec<SaidPiece>,
}

/// A piece and the line that the listing says about it.
pub struct SaidPiece {
    pub piece: Vec<u8>,
    pub line: String,
}

/// A piece's line, field by field.
#[derive(Debug, PartialEq, Eq)]
pub struct PieceLine {
    pub number: usize,
    pub word: Word,
    pub rule: u8,
    pub edges: u8,
    pub wait: u64,
}

impl Vector {
    /// What the sheet's line says: the sheet's size and its graph's nodes.
    pub fn sheet_says(&self) -> (SheetSize, u16) {
        let fields: Vec<&str> = self.sheet_line.split(' ').collect();
        let ["sheet", arity, rules, tests, nodes] = fields[..] else {
            panic!("{}: not a sheet's line: {}", self.name, self.sheet_line);
        };
        let number = |text: &str| text.parse::<u8>().expect("a number");
        let size = SheetSize { arity: number(arity), rules: number(rules), tests: number(tests) };
        (size, nodes.parse().expect("a number"))
    }
}

impl SaidPiece {
    /// What the line says.
    pub fn says(&self) -> PieceLine {
        let fields: Vec<&str> = self.line.split(' ').collect();
        let [number, word, rule, edges, wait] = fields[..] else {
            panic!("not a piece's line: {}", self.line);
        };
        PieceLine {
            number: number.parse().expect("a number"),
            word: (1..=4)
                .filter_map(Word::from_number)
                .find(|known| known.name() == word)
                .expect("an answer's word"),
            rule: rule.parse().expect("a number"),
            edges: edges.parse().expect("a number"),
            wait: u64::from_str_radix(wait, 16).expect("16 digits"),
        }
    }
}

/// All shared vectors.
pub fn all() -> Vec<Vector> {
    let mut vectors: Vec<Vector> = Vec::new();
    let mut piece = None;
    for line in REPORTS.lines().filter(|line| !line.is_empty()) {
        let (head, tail) = line.split_once(' ').expect("a word and the rest");
        if head == "name" {
            vectors.push(Vector { name: tail.into(), ..Vector::default() });
        }
        let vector = vectors.last_mut().expect("a vector begins with its name");
        match (head, piece.take()) {
            ("name" | "from", None) => {}
            ("sheet", None) => vector.sheet = from_hex(tail),
            ("graph", None) => vector.graph = from_hex(tail),
            ("piece", None) => piece = Some(from_hex(tail)),
            ("says", None) => vector.sheet_line = tail.into(),
            ("says", Some(piece)) => vector.pieces.push(SaidPiece { piece, line: tail.into() }),
            _ => panic!("{}: a line out of turn: {line}", vector.name),
        }
    }
    vectors
}
