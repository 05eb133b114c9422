//! The reading order of a track drawing, on positions of several sorts.

use crate::table::Table;
use crate::timing::against;
use voltunnis_tests::generate::random::Random;
use voltunnis_tests::generate::tracks::{list, Sort};
use voltunnis_tests::results::Written;
use voltunnis_tests::{reference, voltunnis};

/// The sorts that are timed, each in words.
const SORTS: [(&str, Sort); 4] = [
    ("any positions", Sort::Wide),
    ("all at one position", Sort::Equal),
    ("inner places first", Sort::InnerFirst),
    ("each place behind those below it", Sort::ParentsLast),
];

/// A row for each sort.
pub fn rows(rows: &mut Table) {
    let mut random = Random::new(0x7472_6163);
    let (one, two) = (&mut vec![0; 1360], &mut vec![0; 1360]);
    for (name, sort) in SORTS {
        let positions = list(&sort.positions(&mut random));
        let Ok(Written { bytes }) = reference::order(&positions, one) else { continue };
        let times = against(|| voltunnis::order(&positions, one), || reference::order(&positions, two));
        rows.row(name, "vt_order", &format!("{bytes} bytes"), times);
    }
}
