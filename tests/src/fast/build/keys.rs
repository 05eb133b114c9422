//! The keys of nodes: live rules and pending tests, and the numbers of those met so far.

use super::super::sheet::MOST_RULES;
use super::sets::Rules;

/// Live rules and pending tests. Leaves have keys of their own: fail no rule and no test, suspend no rule
/// and test 0, execute its rule and no test.
#[derive(Clone, Copy)]
pub struct Key<R> {
    pub live: R,
    pub pending: u64,
}

impl<R: Rules> Key<R> {
    pub const SUSPEND: Self = Key { live: R::NONE, pending: 1 };

    #[inline(always)]
    pub fn is_leaf(self) -> bool {
        !self.live.has_two()
    }

    /// The list that this key is in, of so many. A leaf's key is alone in its list: one for each rule's
    /// execute, then one for fail and one for suspend.
    #[inline(always)]
    fn list(self, lists: usize) -> usize {
        if !self.live.has_two() {
            if self.live == R::NONE {
                return MOST_RULES + self.pending as usize;
            }
            return self.live.lowest();
        }
        let hash = (((self.pending % 65_521) << 32 ^ self.live.into()) % 1_021) as usize;
        LEAVES + (hash & (lists - LEAVES - 1))
    }
}

/// How many lists hold the key of a leaf. The number of all others is a power of 2.
pub const LEAVES: usize = MOST_RULES + 2;

/// No node's number.
pub const NONE: u16 = 0xffff;

/// The keys met so far, by number, and lists of them: the newest of each list, and the one before each in
/// its list.
pub struct Keys<'a, R> {
    pub live: &'a mut [R],
    pub pending: &'a mut [u64],
    pub earlier: &'a mut [u16],
    pub newest: &'a mut [u16],
}

impl<R: Rules> Keys<'_, R> {
    /// How many nodes there is room for.
    #[inline(always)]
    pub fn room(&self) -> usize {
        self.live.len()
    }

    /// The key of a node.
    #[inline(always)]
    pub fn get(&self, node: usize) -> Key<R> {
        Key { live: self.live[node], pending: self.pending[node] }
    }

    /// The number of a key in its list; as many as there are nodes if it was not met.
    #[inline(always)]
    fn find_in(&self, key: Key<R>, list: usize, nodes: usize) -> usize {
        let mut next = self.newest[list];
        loop {
            if next == NONE {
                break nodes;
            }
            let node = usize::from(next);
            if self.live[node] == key.live && self.pending[node] == key.pending {
                break node;
            }
            next = self.earlier[node];
        }
    }

    /// The number of a key that was met.
    #[inline(always)]
    pub fn find(&self, key: Key<R>) -> usize {
        self.find_in(key, key.list(self.newest.len()), 0)
    }

    /// The number of a key: that of the node met before, or the next, which is put in if there is room.
    #[inline(always)]
    pub fn number(&mut self, key: Key<R>, nodes: usize) -> usize {
        let list = key.list(self.newest.len());
        let found = self.find_in(key, list, nodes);
        if found == nodes && nodes < self.room() {
            self.live[nodes] = key.live;
            self.pending[nodes] = key.pending;
            self.earlier[nodes] = self.newest[list];
            self.newest[list] = nodes as u16;
        }
        found
    }
}
