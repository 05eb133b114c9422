//! The calls with a reading order: all places in turn, and the arguments backwards.

use crate::cases::Case;
use crate::table::{outcome, Table};
use crate::timing::against;
use voltunnis_tests::generate::orders::{ascending, reversed, table};
use voltunnis_tests::results::Built;
use voltunnis_tests::{reference, voltunnis};

/// The orders, each in words.
fn orders() -> [(&'static str, Vec<u8>); 2] {
    [("all places in turn", table(&ascending())), ("arguments backwards", table(&reversed()))]
}

/// The rows of the tables alone.
pub fn table_rows(rows: &mut Table) {
    for (name, order) in orders() {
        let times = against(|| voltunnis::check_order(&order), || reference::check_order(&order));
        rows.row(name, "vt_check_order", &outcome(&reference::check_order(&order)), times);
    }
}

/// The rows of one case.
pub fn rows(rows: &mut Table, Case { name, sheet, .. }: &Case) {
    for (words, order) in orders() {
        let len = reference::graph_in(sheet, Some(&order)).map_or(0, |graph| graph.len());
        let (one, two) = (&mut vec![0; len], &mut vec![0; len]);
        let built = reference::build_ordered(sheet, &order, one);
        let size = match built {
            Ok(Built { nodes, bytes }) => format!("{nodes} nodes, {bytes} bytes, {words}"),
            Err(_) => format!("{}, {words}", outcome(&built)),
        };
        let times = against(
            || voltunnis::build_ordered(sheet, &order, one),
            || reference::build_ordered(sheet, &order, two),
        );
        rows.row(name, "vt_build_ordered", &size, times);
    }
}
