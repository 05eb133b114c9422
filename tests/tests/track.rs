//! Reading orders from track positions (document 02, request 14): library and reference against the request's
//! sentence, step by step, on lists of all sorts; what they write is a table that builds accept.

use std::ops::Range;
use voltunnis_tests::both::{build_ordered, check_order, lent, order};
use voltunnis_tests::bytes::{from_hex, to_hex};
use voltunnis_tests::count::Count;
use voltunnis_tests::generate::known;
use voltunnis_tests::generate::orders::{any, ascending, order as some_order, table};
use voltunnis_tests::generate::random::Random;
use voltunnis_tests::generate::sheets::small_sheet;
use voltunnis_tests::generate::stock::Stock;
use voltunnis_tests::generate::tracks::{list, numbered, some_list, Sort};
use voltunnis_tests::reference::places::{argument, child, depth, parent, PLACES};
use voltunnis_tests::reference::track::BYTES;
use voltunnis_tests::results::{Built, Refusal, Written};
use voltunnis_tests::voltunnis;

/// The vectors of request 14.
const VECTORS: &str = include_str!("../vectors/track.txt");

/// How many lists of each sort are tried.
const ROUNDS: usize = 250;

/// The places that an accepted list lays down, from a buffer that takes just the table.
#[track_caller]
fn ordered(positions: &[u16]) -> Vec<u16> {
    let (result, buffer) = order(&list(positions), BYTES);
    assert_eq!(result, Ok(Written { bytes: 1360 }));
    buffer.chunks_exact(2).map(|two| u16::from_be_bytes([two[0], two[1]])).collect()
}

/// "Step by step, of the places not yet put down that are arguments or whose parent is down, the one with the
/// smallest position comes next, on equal positions the lower place."
fn step_by_step(positions: &[u16]) -> Vec<u16> {
    let parents: Vec<Option<u16>> = (0..PLACES).map(parent).collect();
    let mut is_down = [false; PLACES as usize];
    let mut down = Vec::new();
    while down.len() < usize::from(PLACES) {
        let mut next = None;
        for (place, above) in (0..PLACES).zip(&parents) {
            let may_come = above.is_none_or(|above| is_down[usize::from(above)]);
            if is_down[usize::from(place)] || !may_come {
                continue;
            }
            if next.is_none_or(|least| positions[usize::from(place)] < positions[usize::from(least)]) {
                next = Some(place);
            }
        }
        let place = next.expect("a place that may come next");
        is_down[usize::from(place)] = true;
        down.push(place);
    }
    down
}

/// All places by a key.
fn sorted<K: Ord>(key: impl Fn(u16) -> K) -> Vec<u16> {
    let mut places = ascending();
    places.sort_by_key(|place| key(*place));
    places
}

/// By position, each after those above it that have not come yet.
fn repaired(positions: &[u16]) -> Vec<u16> {
    let mut places: Vec<u16> = Vec::new();
    for place in sorted(|place| positions[usize::from(place)]) {
        let above = std::iter::successors(Some(place), |place| parent(*place));
        let missing: Vec<u16> = above.filter(|above| !places.contains(above)).collect();
        places.extend(missing.iter().rev());
    }
    places
}

/// Orders that come close, each in words: the lists have to tell them apart.
fn near_misses(positions: &[u16]) -> [(&'static str, Vec<u16>); 4] {
    let at = |place: u16| positions[usize::from(place)];
    let mirrored: Vec<u16> = positions.iter().map(|position| position.swap_bytes()).collect();
    [
        ("by position alone", sorted(at)),
        ("by depth first", sorted(|place| (depth(place), at(place)))),
        ("parents put before", repaired(positions)),
        ("low byte first", ordered(&mirrored)),
    ]
}

/// What the request says of two places that follow one another, or of a place and its parent, counted where
/// the positions make it matter.
fn compare_neighbours(count: &mut Count, positions: &[u16], places: &[u16]) {
    let at = |place: u16| positions[usize::from(place)];
    let mut turn = [0; PLACES as usize];
    places.iter().enumerate().for_each(|(index, place)| turn[usize::from(*place)] = index);
    for (one, next) in places.iter().zip(&places[1..]) {
        // The next one could have come before, unless it was opened by this one.
        if parent(*next) != Some(*one) {
            assert!((at(*one), *one) < (at(*next), *next), "place {next} after {one}");
            count.met(if at(*one) == at(*next) { "the lower of equal ones" } else { "the smaller position" });
        }
    }
    for place in 0..PLACES {
        let Some(above) = parent(place) else { continue };
        assert!(turn[usize::from(above)] < turn[usize::from(place)], "place {place} before its parent");
        if at(place) < at(above) {
            count.met("a child in front of its parent");
        }
    }
}

#[test]
fn the_shared_vectors_are_met() {
    let mut count = 0;
    for line in VECTORS.lines() {
        let [_, call, said] = line.split('|').collect::<Vec<_>>()[..] else { panic!("not a vector: {line}") };
        let ["order_from_positions", positions, len] = call.split(' ').collect::<Vec<_>>()[..] else {
            panic!("no call: {call}")
        };
        let (result, buffer) = order(&from_hex(positions), len.parse().expect("a length"));
        let reply = match result {
            Ok(Written { bytes }) => format!("ok {bytes} {}", to_hex(&buffer[..bytes as usize])),
            Err(refusal) => format!("refused {refusal}"),
        };
        assert_eq!(reply, said, "{call}");
        count += 1;
    }
    assert_eq!(count, 1);
}

#[test]
fn the_order_is_the_requests_sentence_on_lists_of_all_sorts() {
    let mut random = Random::new(0x7472_6163);
    let mut count = Count::default();
    for sort in [Sort::ALL; ROUNDS].into_iter().flatten() {
        let positions = sort.positions(&mut random);
        let places = ordered(&positions);
        assert_eq!(places, step_by_step(&positions), "{sort:?}: {positions:?}");
        compare_neighbours(&mut count, &positions, &places);
        for (words, other) in near_misses(&positions) {
            if other != places {
                count.met(words);
            }
        }
        count.met(format!("{sort:?}"));
    }
    count.print();
    count.often(ROUNDS, Sort::ALL.map(|sort| format!("{sort:?}")));
    count.often(
        100_000,
        ["the lower of equal ones", "the smaller position", "a child in front of its parent"],
    );
    let told = ["by position alone", "by depth first", "parents put before", "low byte first"];
    count.often(3 * ROUNDS, told);
}

#[test]
fn the_result_is_a_table_that_is_accepted_and_built_with() {
    let mut random = Random::new(0x7461_626c);
    let mut count = Count::default();
    for sort in [Sort::ALL; ROUNDS].into_iter().flatten() {
        let table = table(&ordered(&sort.positions(&mut random)));
        assert_eq!(check_order(&table), Ok(()), "{sort:?}");
        count.met(format!("{sort:?}"));
        let (example, _) = build_ordered(&known::example(), &table, 51);
        assert_eq!(example, Ok(Built { nodes: 6, bytes: 51 }), "{sort:?}");
        let sheet = small_sheet(&mut random, Stock::FULL).bytes();
        if voltunnis::check_sheet(&sheet).is_ok() {
            let (result, _) = build_ordered(&sheet, &table, 40_000);
            count.met(match result {
                Ok(_) => "built".into(),
                Err(refusal) => format!("refused {refusal}"),
            });
            assert!(matches!(result, Ok(_) | Err(18)), "{result:?}");
        }
    }
    count.print();
    count.often(ROUNDS, Sort::ALL.map(|sort| format!("{sort:?}")));
    count.often(1_500, ["built"]);
}

#[test]
fn equal_positions_go_to_the_lower_place() {
    for position in [0, 1, 0x00ff, 0x0100, 0xffff] {
        assert_eq!(ordered(&[position; 680]), ascending());
    }
    let mut random = Random::new(0x7469_6573);
    for _ in 0..200 {
        // Two arguments at one position, in front of all others.
        let (one, other) = (random.between(1, 7) as u8, random.between(1, 7) as u8);
        let (lower, higher) = (one.min(other), one.max(other) + 1);
        let mut positions = [9; 680];
        positions[usize::from(argument(lower))] = 5;
        positions[usize::from(argument(higher))] = 5;
        assert_eq!(ordered(&positions)[..2], [argument(lower), argument(higher)]);
    }
}

/// A run of places without some of them.
fn without(run: Range<u16>, some: &[u16]) -> Vec<u16> {
    run.filter(|place| !some.contains(place)).collect()
}

#[test]
fn a_child_in_front_of_its_parent_comes_after_it() {
    let mut positions = [60; 680];
    let (first, second) = (argument(1), argument(2));
    let part = child(first, 1, 3);
    let below = child(part, 2, 2);
    positions[usize::from(first)] = 30;
    positions[usize::from(part)] = 10;
    positions[usize::from(below)] = 0;
    positions[usize::from(second)] = 20;
    let places = ordered(&positions);
    assert_eq!(places[..4], [second, first, part, below]);
    // The rest at 60, ascending.
    assert_eq!(places[4..], without(0..680, &[second, first, part, below]));
    // The part waits for its own position, and what is below it for the part.
    positions[usize::from(below)] = 25;
    positions[usize::from(part)] = 70;
    let places = ordered(&positions);
    assert_eq!(places[..2], [second, first]);
    assert_eq!(places[659..661], [part, below]);
    assert_eq!(places[661..], without(part..part + 21, &[part, below]));
}

#[test]
fn positions_that_number_a_reading_order_give_it_back() {
    let mut random = Random::new(0x6261_636b);
    for _ in 0..300 {
        for places in [any(&mut random), some_order(&mut random)] {
            assert_eq!(ordered(&numbered(&places)), places);
        }
    }
}

/// Writes to a buffer of this length and is refused; no byte of it changes.
#[track_caller]
fn refused(positions: &[u8], len: usize, refusal: Refusal) {
    let (result, buffer) = order(positions, len);
    assert_eq!(result, Err(refusal), "{} bytes to {len}", positions.len());
    assert!(buffer == lent(len), "a byte changed on a refusal");
}

#[test]
fn question_37_asks_for_1360_bytes_before_38_asks_for_room() {
    let longer = list(&[7; 681]);
    for positions in [0, 1, 2, 680, 1358, 1359, 1361, 1362] {
        for len in [0, 1, 1359, 1360, 1361, 2000] {
            refused(&longer[..positions], len, 37);
        }
    }
    for len in [0, 1, 2, 1358, 1359] {
        refused(&longer[..1360], len, 38);
    }
}

#[test]
fn the_table_stands_at_the_front_and_the_rest_stays() {
    let positions = numbered(&any(&mut Random::new(0x726f_6f6d)));
    let table = table(&step_by_step(&positions));
    for len in [1360, 1361, 1362, 2720] {
        let (result, buffer) = order(&list(&positions), len);
        assert_eq!(result, Ok(Written { bytes: 1360 }));
        assert!(buffer[..1360] == table[..] && buffer[1360..] == lent(len)[1360..], "{len} bytes");
    }
}

#[test]
fn lists_of_any_length_are_ordered_or_refused() {
    let mut random = Random::new(0x616e_796c);
    let mut count = Count::default();
    for _ in 0..3_000 {
        let positions = some_list(&mut random);
        let len = random.pick(&[0, 1, 1359, 1360, 1361, 1400]);
        let (result, buffer) = order(&positions, len);
        let expected = match (positions.len(), len) {
            (1360, 1360..) => Ok(Written { bytes: 1360 }),
            (1360, _) => Err(38),
            _ => Err(37),
        };
        assert_eq!(result, expected, "{} bytes to {len}", positions.len());
        let written = result.map_or(0, |written| written.bytes as usize);
        assert!(buffer[written..] == lent(len)[written..], "a byte that is not the table's");
        count.met(result.map_or_else(|refusal| format!("refused {refusal}"), |_| "written".into()));
        count.met(format!("{} bytes to {len}", positions.len()));
    }
    count.print();
    count.often(500, ["refused 37", "refused 38", "written"]);
    let lengths = [0, 1359, 1361].into_iter().flat_map(|list| [1359, 1360, 1361].map(|len| (list, len)));
    count.often(5, lengths.map(|(list, len)| format!("{list} bytes to {len}")));
}
