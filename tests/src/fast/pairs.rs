//! The sheet's pairs of places, distinct and ascending.

/// Room for the 64 pairs that a sheet may have, and for one too many.
pub const ROOM: usize = 65;

/// Pairs as `pair` makes them. How many of them there are is kept beside them.
pub type Pairs = [u32; ROOM];

/// The pair p, q as one number, which ascends by p, then q.
#[inline(always)]
pub fn pair(p: u16, q: u16) -> u32 {
    u32::from(p) << 16 | u32::from(q)
}

/// The first position whose pair is not below this one.
#[inline(always)]
pub fn position(pairs: &Pairs, count: usize, pair: u32) -> usize {
    if count == 0 || pairs[count - 1] < pair {
        return count;
    }
    let mut low = 0;
    let mut high = count;
    while low < high {
        let middle = (low + high) / 2;
        if pairs[middle] < pair {
            low = middle + 1;
        } else {
            high = middle;
        }
    }
    low
}

/// Whether a pair is among them.
#[inline(always)]
pub fn holds(pairs: &Pairs, count: usize, pair: u32) -> bool {
    let at = position(pairs, count, pair);
    at < count && pairs[at] == pair
}

/// Puts a pair in its position; gives how many there are then, 65 for any number above 64.
pub fn put(pairs: &mut Pairs, count: usize, pair: u32) -> usize {
    if count >= ROOM {
        return ROOM;
    }
    let at = position(pairs, count, pair);
    if at < count && pairs[at] == pair {
        return count;
    }
    let mut i = count;
    while i > at {
        pairs[i] = pairs[i - 1];
        i -= 1;
    }
    pairs[at] = pair;
    count + 1
}
