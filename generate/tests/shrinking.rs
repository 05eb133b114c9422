//! Calls are made smaller whatever they are and whatever is looked for, and never larger.

use voltunnis_generate::calls::{Call, Name, Role};
use voltunnis_generate::shrink::{fewest, smallest};
use voltunnis_generate::stream::Stream;

/// A builder that has no graph for any sheet, as far as the generators know.
fn no_graph(_: &[u8], _: Option<&[u8]>) -> Option<Vec<u8>> {
    None
}

/// The bytes of all arguments.
fn bytes(call: &Call) -> usize {
    call.arguments().map(|(_, bytes)| bytes.len()).sum()
}

#[test]
fn if_every_call_will_do_nothing_is_left() {
    for call in Stream::new(3, no_graph).take(300) {
        let small = smallest(&call, &no_graph, &mut |_| true, 100_000);
        assert_eq!(bytes(&small), 0, "{small} from {call}");
    }
}

#[test]
fn if_no_other_call_will_do_it_stays() {
    // Every step is tried: a longer sheet has more steps, and each copies it. One of 17 KB takes ten seconds or more.
    for call in Stream::new(4, no_graph).filter(|call| bytes(call) < 8_000).take(300) {
        assert_eq!(smallest(&call, &no_graph, &mut |_| false, 100_000), call);
    }
}

#[test]
fn what_is_looked_for_is_kept_and_little_else() {
    let has = |call: &Call, byte: u8| call.argument(Role::Graph).is_some_and(|graph| graph.contains(&byte));
    let calls = Stream::new(5, no_graph).filter(|call| call.name() == Name::Walk && has(call, 0x47));
    for call in calls.take(40) {
        let small = smallest(&call, &no_graph, &mut |call| has(call, 0x47), 100_000);
        assert_eq!(small.to_string(), "check_graph - 47", "from {call}");
    }
}

#[test]
fn questions_only_get_smaller() {
    for call in Stream::new(6, no_graph).take(200) {
        let mut last = bytes(&call);
        let mut shows = |next: &Call| {
            assert!(bytes(next) <= last, "{next}");
            let shows = bytes(next).is_multiple_of(3);
            if shows {
                last = bytes(next);
            }
            shows
        };
        smallest(&call, &no_graph, &mut shows, 1_000);
    }
}

#[test]
fn of_a_list_the_fewest_items_are_left() {
    let items: Vec<u32> = (0..100).collect();
    let mut asked = 0;
    let mut shows = |items: &[u32]| {
        asked += 1;
        [17, 18, 80].iter().all(|item| items.contains(item))
    };
    assert_eq!(fewest(&items, &mut shows, 1_000), [17, 18, 80]);
    assert!(asked < 200, "{asked} questions");
    assert_eq!(fewest(&items, &mut |_| true, 1_000), []);
    assert_eq!(fewest(&items, &mut |_| true, 0), items);
}
