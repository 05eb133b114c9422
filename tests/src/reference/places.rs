//! The numbering of places: 0 to 679 in preorder, arguments at depth 1, the deepest depth 4.

/// How many places there are.
pub const PLACES: u16 = 680;

/// The deepest depth.
pub const DEEPEST: usize = 4;

/// How many places a place of depth 1, 2, 3, 4 has at or below it.
const SUBTREE: [u16; DEEPEST] = [85, 21, 5, 1];

/// The place of an argument, the first being 1.
pub fn argument(a: u8) -> u16 {
    SUBTREE[0] * (u16::from(a) - 1)
}

/// The place of child j, the first being 1, of a place at this depth, 1 to 3.
pub fn child(place: u16, depth: usize, j: u8) -> u16 {
    place + 1 + (u16::from(j) - 1) * SUBTREE[depth]
}

/// The highest place at or below a place of this depth.
pub fn last_below(place: u16, depth: usize) -> u16 {
    place + SUBTREE[depth - 1] - 1
}

/// The depth of a place.
pub fn depth(place: u16) -> usize {
    let mut offset = place % SUBTREE[0];
    let mut depth = 1;
    while offset > 0 {
        offset = (offset - 1) % SUBTREE[depth];
        depth += 1;
    }
    depth
}

/// The parent of a place; none of an argument.
pub fn parent(place: u16) -> Option<u16> {
    let mut offset = place % SUBTREE[0];
    let mut parent = None;
    for subtree in &SUBTREE[1..] {
        if offset == 0 {
            break;
        }
        parent = Some(place - offset);
        offset = (offset - 1) % subtree;
    }
    parent
}

#[cfg(test)]
mod tests {
    use super::*;

    /// Counts places one by one, a place before those below it, and compares each with its number.
    fn count(place: u16, depth: usize, next: &mut u16) {
        assert_eq!(place, *next);
        assert_eq!(super::depth(place), depth);
        *next += 1;
        if depth < DEEPEST {
            for j in 1..=4 {
                assert_eq!(parent(child(place, depth, j)), Some(place));
                count(child(place, depth, j), depth + 1, next);
            }
        }
        assert_eq!(last_below(place, depth) + 1, *next);
    }

    #[test]
    fn places_are_numbered_in_preorder() {
        let mut next = 0;
        for a in 1..=8 {
            assert_eq!(parent(argument(a)), None);
            count(argument(a), 1, &mut next);
        }
        assert_eq!(next, PLACES);
    }
}
