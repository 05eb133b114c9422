//! Graphs from before gauges (document 02, request 7), whose number cases have 7 bytes: a gauge of 0 put into each.

use crate::notation::{Case, Graph, Kind, Unread};
use voltunnis::{check_graph, Refusal};

/// Why bytes are not lifted.
#[derive(Clone, Debug, PartialEq, Eq)]
pub enum NotLifted {
    /// They are accepted as they are, their number cases read with gauges. Few graphs from before gauges are, and are
    /// other graphs then: they are built again.
    HasGauges,
    /// They cannot be read as a graph whose number cases have no gauge.
    Unread(Unread),
    /// Lifted, these bytes are refused.
    Refused(Vec<u8>, Refusal),
}

/// A graph from before gauges with a gauge of 0 in each number case, which the library accepts for this sheet. One
/// without number cases stays as it is.
///
/// ```
/// use voltunnis_workbench::lift::lift;
///
/// // A number from 5 to 9; one case for these, to execute 1, and fail.
/// let sheet = [0x10, 1, 1, 0x22, 0, 5, 0, 9];
/// let older = [0x12, 1, 1, 0, 3, 0x43, 0, 0, 0, 1, 0, 2, 0, 1, 0x46, 0, 5, 0, 9, 0, 1, 0x42, 1, 0x40];
/// let lifted = lift(&sheet, &older).unwrap();
/// assert_eq!(lifted[14..22], [0x46, 0, 0, 5, 0, 9, 0, 1]);
/// assert!(lift(&sheet, &lifted).is_err());
/// ```
pub fn lift(sheet: &[u8], bytes: &[u8]) -> Result<Vec<u8>, NotLifted> {
    if check_graph(sheet, bytes).is_ok() {
        return match Graph::read(bytes).is_ok_and(|graph| has_numbers(&graph)) {
            true => Err(NotLifted::HasGauges),
            false => Ok(bytes.to_vec()),
        };
    }
    let lifted = Graph::read_older(bytes).map_err(NotLifted::Unread)?.bytes();
    match check_graph(sheet, &lifted) {
        Ok(_) => Ok(lifted),
        Err(refusal) => Err(NotLifted::Refused(lifted, refusal)),
    }
}

/// Whether a graph has a number case.
fn has_numbers(graph: &Graph) -> bool {
    graph.nodes.iter().any(|node| match &node.kind {
        Kind::Switch { cases, .. } => cases.iter().any(|(case, _)| matches!(case, Case::Numbers(..))),
        _ => false,
    })
}
