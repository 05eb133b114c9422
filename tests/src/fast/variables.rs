//! The variables of one rule: where each stands, and the common part of its ranges.

/// The most places of a variable that are kept: 12 give 66 pairs, too many for any sheet.
pub const MOST_PLACES: usize = 11;

/// Cells of a variable.
const CELLS: usize = 16;
const COUNT: usize = 0;
const RANGED: usize = 1;
const LOW: usize = 2;
const HIGH: usize = 3;
const PLACES: usize = 4;

/// The cells of variables 0 to 15, and the set of those met. A variable's cells mean something only
/// when it is in the set, so that nothing but the set is cleared for the next rule.
pub struct Variables {
    cells: [u16; 16 * CELLS],
    met: u16,
}

impl Variables {
    #[inline(always)]
    pub fn none() -> Self {
        Variables { cells: [0; 16 * CELLS], met: 0 }
    }

    /// The set of variables met in this rule.
    #[inline(always)]
    pub fn met(&self) -> u16 {
        self.met
    }

    /// Makes ready for the next rule.
    #[inline(always)]
    pub fn clear(&mut self) {
        self.met = 0;
    }

    /// Meets a variable at a place.
    #[inline(always)]
    pub fn meet(&mut self, number: u8, place: usize) {
        let first = usize::from(number & 15) * CELLS;
        let bit = 1 << (number & 15);
        if self.met & bit == 0 {
            self.met |= bit;
            self.cells[first + COUNT] = 1;
            self.cells[first + RANGED] = 0;
            self.cells[first + PLACES] = place as u16;
        } else {
            let count = self.cells[first + COUNT];
            if count < MOST_PLACES as u16 {
                self.cells[first + PLACES + usize::from(count)] = place as u16;
                self.cells[first + COUNT] = count + 1;
            } else {
                self.cells[first + COUNT] = MOST_PLACES as u16 + 1;
            }
        }
    }

    /// Meets a ranged variable at a place.
    #[inline(always)]
    pub fn meet_ranged(&mut self, number: u8, place: usize, low: u16, high: u16) {
        self.meet(number, place);
        let first = usize::from(number & 15) * CELLS;
        if self.cells[first + RANGED] == 0 {
            self.cells[first + RANGED] = 1;
            self.cells[first + LOW] = low;
            self.cells[first + HIGH] = high;
        } else {
            if low > self.cells[first + LOW] {
                self.cells[first + LOW] = low;
            }
            if high < self.cells[first + HIGH] {
                self.cells[first + HIGH] = high;
            }
        }
    }

    /// At how many places a variable stands, one above the most for any number above it.
    #[inline(always)]
    pub fn count(&self, number: usize) -> usize {
        usize::from(self.cells[number * CELLS + COUNT])
    }

    /// The place with this index of a variable.
    #[inline(always)]
    pub fn place(&self, number: usize, index: usize) -> u16 {
        self.cells[number * CELLS + PLACES + index]
    }

    /// Whether a record of a variable is ranged.
    #[inline(always)]
    pub fn is_ranged(&self, number: usize) -> bool {
        self.cells[number * CELLS + RANGED] == 1
    }

    /// The lowest number of the common part of a variable's ranges.
    #[inline(always)]
    pub fn low(&self, number: usize) -> u16 {
        self.cells[number * CELLS + LOW]
    }

    /// The highest number of the common part of a variable's ranges.
    #[inline(always)]
    pub fn high(&self, number: usize) -> u16 {
        self.cells[number * CELLS + HIGH]
    }
}
