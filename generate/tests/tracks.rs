//! Track positions are of the sort that is asked for.

use std::collections::BTreeSet;
use voltunnis_generate::orders::{way, PLACES};
use voltunnis_generate::random::Random;
use voltunnis_generate::tracks::{list, numbered, some_list, Sort};

/// The position of the parent of a place, if it has one.
fn above(positions: &[u16], place: usize) -> Option<u16> {
    let way = way(place as u16);
    way.len().checked_sub(2).map(|at| positions[usize::from(way[at])])
}

/// Whether positions are as a sort says.
fn is(sort: Sort, positions: &[u16]) -> bool {
    let values = positions.iter().collect::<BTreeSet<_>>().len();
    let (leaves, inner): (Vec<usize>, Vec<usize>) =
        (0..positions.len()).partition(|place| way(*place as u16).len() == 4);
    let before = |first: &[usize], then: &[usize]| {
        let last = first.iter().map(|place| positions[*place]).max();
        last < then.iter().map(|place| positions[*place]).min()
    };
    match sort {
        Sort::Wide => values > 600,
        Sort::Few => (2..=5).contains(&values),
        Sort::Equal => values == 1,
        Sort::InnerFirst => before(&inner, &leaves),
        Sort::LeavesFirst => before(&leaves, &inner),
        Sort::Reversed => positions.windows(2).all(|two| two[0] == two[1] + 1),
        Sort::ParentsLast => (0..positions.len())
            .all(|place| above(positions, place).is_none_or(|above| positions[place] < above)),
        Sort::Numbered => {
            let all: BTreeSet<u16> = positions.iter().copied().collect();
            let after = |place: usize| above(positions, place).is_none_or(|above| above < positions[place]);
            all.into_iter().eq(0..PLACES) && (0..positions.len()).all(after)
        }
    }
}

#[test]
fn positions_are_of_their_sort() {
    let mut random = Random::new(0x7472_6163);
    for _ in 0..200 {
        for sort in Sort::ALL {
            let positions = sort.positions(&mut random);
            assert_eq!(positions.len(), 680);
            assert!(is(sort, &positions), "{sort:?}: {positions:?}");
        }
    }
    assert_eq!(numbered(&[2, 0, 1]), [1, 2, 0]);
}

#[test]
fn lists_are_whole_or_of_another_length() {
    let mut random = Random::new(0x6c69_7374);
    assert_eq!(list(&[1, 0x0203]), [0, 1, 2, 3]);
    let lengths: Vec<usize> = (0..1_000).map(|_| some_list(&mut random).len()).collect();
    for length in [0, 1, 2, 1358, 1359, 1360, 1361, 1362, 2720] {
        assert!(lengths.contains(&length), "{length}");
    }
}
