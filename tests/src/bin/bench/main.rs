//! Times the library against the reference and the fast code, call by call in the same run, and prints a
//! table; then for each call the geometric mean and the worst of its ratios to the fast code.
//!
//! `cargo run --release --bin bench`, after tools/staticlib.sh and `rt run` in crates/listing. A ratio above
//! 1 says that the library is slower.

mod cases;
mod graphs;
mod listing;
mod orders;
mod table;
mod timing;
mod tracks;
mod window;

use cases::Case;
use table::{outcome, Table};
use timing::against_both;
use voltunnis_tests::results::Written;
use voltunnis_tests::{fast, reference, voltunnis};

fn rows(table: &mut Table, Case { name, sheet, piece }: &Case) {
    let times = against_both(
        || voltunnis::check_sheet(sheet),
        || reference::check_sheet(sheet),
        || fast::check_sheet(sheet),
    );
    table.row(name, "vt_check_sheet", &outcome(&reference::check_sheet(sheet)), times);
    let times = against_both(
        || voltunnis::check_piece(piece),
        || reference::check_piece(piece),
        || fast::check_piece(piece),
    );
    table.row(name, "vt_check_piece", &outcome(&reference::check_piece(piece)), times);
    let times = against_both(
        || voltunnis::plain(sheet, piece),
        || reference::plain(sheet, piece),
        || fast::plain(sheet, piece),
    );
    table.row(name, "vt_plain", &outcome(&reference::plain(sheet, piece)), times);
}

/// No tidy sheet has more bytes.
const TIDY: usize = ::voltunnis::MOST_TIDY_BYTES;

fn tidy_row(table: &mut Table, Case { name, sheet, .. }: &Case) {
    let (one, two, three) = (&mut vec![0; TIDY], &mut vec![0; TIDY], &mut vec![0; TIDY]);
    let tidied = reference::tidy(sheet, one);
    let size = match tidied {
        Ok(Written { bytes }) => format!("{} bytes, tidy {bytes}", sheet.len()),
        Err(_) => outcome(&tidied),
    };
    let times = against_both(
        || voltunnis::tidy(sheet, one),
        || reference::tidy(sheet, two),
        || fast::tidy(sheet, three),
    );
    table.row(name, "vt_tidy", &size, times);
}

fn main() {
    if std::env::args().nth(1).as_deref() == Some(listing::WORD) {
        return listing::print();
    }
    let table = &mut Table::new();
    cases::all().iter().for_each(|case| rows(table, case));
    cases::all().iter().for_each(|case| tidy_row(table, case));
    cases::for_graphs().iter().for_each(|case| graphs::rows(table, case));
    cases::for_walks().iter().for_each(|case| graphs::walk_rows(table, case));
    graphs::spans_row(table);
    tracks::rows(table);
    orders::table_rows(table);
    cases::for_orders().iter().for_each(|case| orders::rows(table, case));
    cases::for_listing().iter().for_each(|case| listing::row(table, case));
    window::rows(table);
    table.print_means();
}
