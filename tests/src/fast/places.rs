//! The numbering of places, and sets of places.

/// How many places there are. As a parent it says that a place is an argument's.
pub const PLACES: usize = 680;

/// The step from a place to the next one beside it, at depths 1 to 4.
pub const STEP: [usize; 4] = [85, 21, 5, 1];

const fn parents() -> [u16; PLACES] {
    let mut parents = [PLACES as u16; PLACES];
    let mut place = 0;
    while place < PLACES {
        let below_argument = place % STEP[0];
        if below_argument != 0 {
            let at_2 = (below_argument - 1) % STEP[1];
            let at_3 = if at_2 == 0 { 0 } else { (at_2 - 1) % STEP[2] };
            let up = if at_2 == 0 {
                below_argument
            } else if at_3 == 0 {
                at_2
            } else {
                at_3
            };
            parents[place] = (place - up) as u16;
        }
        place += 1;
    }
    parents
}

/// The parent of each place.
pub static PARENT: [u16; PLACES] = parents();

/// The step between the children of a place: 21, 5, 1, or 0 at the deepest depth.
#[inline(always)]
pub fn step_of_children(place: usize) -> usize {
    let one_up = usize::from(PARENT[place]);
    if one_up == PLACES {
        return STEP[1];
    }
    let two_up = usize::from(PARENT[one_up]);
    if two_up == PLACES {
        return STEP[2];
    }
    if usize::from(PARENT[two_up]) == PLACES {
        STEP[3]
    } else {
        0
    }
}

/// How many words a set of places has.
pub const WORDS: usize = PLACES.div_ceil(64);

/// A set of places: place p is bit p % 64 of word p / 64.
pub type PlaceSet = [u64; WORDS];

/// Puts a place in the set.
#[inline(always)]
pub fn put(set: &mut PlaceSet, place: usize) {
    set[place >> 6] |= 1 << (place & 63);
}

/// Whether a place is in the set.
#[inline(always)]
pub fn holds(set: &PlaceSet, place: u16) -> bool {
    usize::from(place) < PLACES && set[usize::from(place) >> 6] >> (place & 63) & 1 == 1
}

/// How many places of so many arguments are in the set. Word by word: more at once does not pay for few.
#[inline(always)]
pub fn count(set: &PlaceSet, arity: usize) -> usize {
    let mut count = 0;
    let mut word = 0;
    while word < (arity * STEP[0]).div_ceil(64) {
        count += set[word].count_ones() as usize;
        word += 1;
    }
    count
}
