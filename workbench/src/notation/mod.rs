//! The notation for sheets, pieces, graphs, reading orders and track drawings, as docs/NOTATION.md describes
//! it.
//!
//! Printing and parsing are inverse: the bytes of a sheet, a piece, a graph, an order or a drawing, printed
//! and parsed again, are the same bytes.

mod names;
mod order;
mod parse_graph;
mod parse_names;
mod parse_order;
mod parse_piece;
mod parse_place;
mod parse_sheet;
mod parse_track;
mod parser;
pub mod places;
mod print;
mod print_graph;
mod read;
mod span;
mod token;
mod track;
mod tree;
mod write;

pub use names::{distance, Declared, Name, Names, Used};
pub use order::{Line, Order};
pub use parse_graph::parse_graph;
pub use parse_names::declares;
pub use parse_order::parse_order;
pub use parse_piece::{parse_piece, parse_pieces};
pub use parse_sheet::{parse_sheet, SheetText};
pub use parse_track::parse_track;
pub use print::numbers;
pub use print_graph::count;
pub use read::Unread;
pub use span::{position, Fault, Position, Span};
pub use track::{Spot, Track};
pub use tree::{Case, Form, Graph, Kind, Node, Pattern, Piece, Rule, Sheet, Term, What};

/// The sheet that these bytes spell, as text.
///
/// ```
/// use voltunnis_workbench::notation::print_sheet;
///
/// let bytes = [0x10, 2, 2, 0x24, 0, 0x27, 3, 0, 5, 0, 9, 0x26, 0, 1, 0, 3, 0x22, 0, 5, 0, 9];
/// assert_eq!(print_sheet(&bytes).unwrap(), "sheet 2\n1: (X, 5..9@3)\n2: (#1..#3, 5..9)\n");
/// assert_eq!(print_sheet(&[0x10, 1, 1, 0x28]).unwrap_err().at, 3);
/// ```
pub fn print_sheet(bytes: &[u8]) -> Result<String, Unread> {
    Sheet::read(bytes).map(|sheet| sheet.print(&Names::default()))
}

/// The piece that these bytes spell, as text.
///
/// ```
/// use voltunnis_workbench::notation::print_piece;
///
/// assert_eq!(print_piece(&[0x11, 2, 0x30, 0x33, 0, 7, 1, 0x32, 0, 180]).unwrap(), "(?, #7(180))");
/// let bytes = [0x11, 3, 0x34, 0, 231, 0, 239, 0x35, 0x36, 3, 0, 180];
/// assert_eq!(print_piece(&bytes).unwrap(), "(231..239?, !, 180@3)");
/// ```
pub fn print_piece(bytes: &[u8]) -> Result<String, Unread> {
    Piece::read(bytes).map(|piece| piece.print(&Names::default()))
}

/// The graph that these bytes spell, as text.
///
/// ```
/// use voltunnis_workbench::notation::print_graph;
///
/// let bytes = [0x12, 1, 1, 0, 3, 0x43, 0, 0, 0, 1, 0, 2, 0, 1, 0x46, 3, 0, 5, 0, 9, 0, 1, 0x42, 1, 0x40];
/// let text = "graph 1, 1 rule, 3 nodes\n0: argument 1\n   5..9@3  -> 1\n   neither -> 2\n   unknown -> 1\n\
///             1: execute 1\n2: fail\n";
/// assert_eq!(print_graph(&bytes).unwrap(), text);
/// ```
pub fn print_graph(bytes: &[u8]) -> Result<String, Unread> {
    Graph::read(bytes).map(|graph| graph.print(&Names::default(), |_| None))
}

/// The reading order that this table spells, as text.
///
/// ```
/// use voltunnis_workbench::notation::print_order;
///
/// // Argument 1 with all below it last.
/// let table: Vec<u8> = (85..680u16).chain(0..85).flat_map(u16::to_be_bytes).collect();
/// assert_eq!(print_order(&table).unwrap(), "order\nrest\nargument 1\n");
/// assert_eq!(print_order(&table[2..]).unwrap_err().at, 1358);
/// ```
pub fn print_order(bytes: &[u8]) -> Result<String, Unread> {
    Order::read(bytes).map(|order| order.print())
}

/// The track drawing that this list of positions spells, as text.
///
/// ```
/// use voltunnis_workbench::notation::print_track;
///
/// // Argument 2 with all below it at 120, all else at the end of the track.
/// let positions = (0..680u16).map(|place| if place / 85 == 1 { 120 } else { 65535 });
/// let list: Vec<u8> = positions.flat_map(u16::to_be_bytes).collect();
/// assert_eq!(print_track(&list).unwrap(), "track\nargument 2 at 120\n");
/// assert_eq!(print_track(&list[1..]).unwrap_err().at, 1358);
/// ```
pub fn print_track(bytes: &[u8]) -> Result<String, Unread> {
    Track::read(bytes).map(|track| track.print())
}
