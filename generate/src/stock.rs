//! What random patterns and terms are made of. Ids and numbers are few, so that rules collide.

use crate::random::Random;

/// Ids of symbols and compounds, some with a high byte.
pub const IDS: [u16; 4] = [1, 2, 0x0102, 0xffff];

/// Numbers and ends of ranges, the lowest and the highest among them.
pub const NUMBERS: [u16; 10] = [0, 1, 2, 3, 4, 0x00ff, 0x0100, 0x7fff, 0xfffe, 0xffff];

/// Ends of series, the lowest and the highest id among them, and some that are next to each other.
pub const SERIES: [u16; 10] = [0, 1, 2, 3, 4, 0x00ff, 0x0101, 0x0102, 0xfffe, 0xffff];

/// Gauges, the lowest and the highest among them, and some that are next to each other.
pub const GAUGES: [u8; 4] = [0, 1, 2, 255];

/// The ids, numbers and compounds to choose from.
#[derive(Clone, Copy)]
pub struct Stock {
    pub ids: &'static [u16],
    /// Ends of series.
    pub series: &'static [u16],
    pub numbers: &'static [u16],
    pub gauges: &'static [u8],
    pub most_arguments: usize,
    /// The deepest depth at which a compound may stand.
    pub deepest_compound: usize,
    /// How many numbers of a piece out of a hundred are spans.
    pub spans: usize,
    /// How many numbers of a piece that are no spans, out of a hundred, name their gauge, which may be 0.
    pub gauged: usize,
    /// How many readings of a piece that are missing, out of a hundred, will never come.
    pub nevers: usize,
}

impl Stock {
    /// All of it.
    pub const FULL: Stock = Stock {
        ids: &IDS,
        series: &SERIES,
        numbers: &NUMBERS,
        gauges: &GAUGES,
        most_arguments: 4,
        deepest_compound: 3,
        spans: 65,
        gauged: 40,
        nevers: 40,
    };

    /// The same without spans.
    pub fn without_spans(self) -> Stock {
        Stock { spans: 0, ..self }
    }

    /// The same without numbers that name their gauge.
    pub fn without_gauges(self) -> Stock {
        Stock { gauged: 0, ..self }
    }

    /// The same with numbers most of which name their gauge, and few spans.
    pub fn mostly_gauges(self) -> Stock {
        Stock { gauged: 90, spans: self.spans.min(10), ..self }
    }

    /// The same without readings that will never come.
    pub fn without_nevers(self) -> Stock {
        Stock { nevers: 0, ..self }
    }

    /// A part of it.
    pub fn random(random: &mut Random) -> Stock {
        Stock {
            ids: &IDS[..random.between(1, IDS.len())],
            series: &SERIES[..random.between(2, SERIES.len())],
            numbers: &NUMBERS[..random.between(2, NUMBERS.len())],
            gauges: &GAUGES[..random.between(1, GAUGES.len())],
            most_arguments: random.between(1, 4),
            deepest_compound: random.between(1, 3),
            spans: random.pick(&[0, 65]),
            gauged: random.pick(&[0, 40]),
            nevers: random.pick(&[0, 40]),
        }
    }
}
