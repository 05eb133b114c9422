//! Sets of rules and of items. A sheet of up to 32 rules is built with words of half the size.

use std::ops::{BitAnd, BitOr, BitOrAssign, BitXorAssign, Not};

/// A set that is one word, member i being bit i.
pub trait Set:
    Copy + Eq + BitAnd<Output = Self> + BitOr<Output = Self> + BitOrAssign + BitXorAssign + Not<Output = Self>
{
    const NONE: Self;

    /// The set of one member.
    fn of(member: usize) -> Self;

    /// The set of the members below this number, which is at most how many a set may have.
    fn below(count: u8) -> Self;

    /// The lowest member of a set that has one.
    fn lowest(self) -> usize;

    /// The set without its lowest member.
    fn rest(self) -> Self;

    /// Whether there are two members or more.
    #[inline(always)]
    fn has_two(self) -> bool {
        self.rest() != Self::NONE
    }
}

macro_rules! set {
    ($($word:ty),*) => {$(
        impl Set for $word {
            const NONE: Self = 0;

            #[inline(always)]
            fn of(member: usize) -> Self {
                1 << member
            }

            #[inline(always)]
            fn below(count: u8) -> Self {
                Self::MAX.checked_shr(Self::BITS - u32::from(count)).unwrap_or(0)
            }

            #[inline(always)]
            fn lowest(self) -> usize {
                self.trailing_zeros() as usize
            }

            #[inline(always)]
            fn rest(self) -> Self {
                self & self.wrapping_sub(1)
            }
        }
    )*};
}

set!(u32, u64, u128);

/// A set of rules. At a place there are up to two items for each rule.
pub trait Rules: Set + Into<u64> {
    type Items: Set;
}

impl Rules for u32 {
    type Items = u64;
}

impl Rules for u64 {
    type Items = u128;
}
