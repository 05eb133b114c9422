//! How a result is packed in one u64.
//!
//! The lowest byte is the number of the refusal, 0 when accepted. The fields follow from bit 8 up,
//! the first one lowest. On a refusal every other bit is 0.

use crate::{Built, GraphSize, PieceSize, Plain, Refusal, Run, SheetSize, Walk, Word, Written};

/// A result's fields as one number, the first field in its lowest bits.
pub trait Fields: Sized {
    fn to_bits(&self) -> u64;
    /// The result with these fields; bits that no field takes are left out.
    fn from_bits(bits: u64) -> Option<Self>;
}

impl Fields for SheetSize {
    fn to_bits(&self) -> u64 {
        u64::from(self.arity) | u64::from(self.rules) << 8 | u64::from(self.tests) << 16
    }

    fn from_bits(bits: u64) -> Option<Self> {
        let [arity, rules, tests, ..] = bits.to_le_bytes();
        Some(SheetSize { arity, rules, tests })
    }
}

impl Fields for PieceSize {
    fn to_bits(&self) -> u64 {
        u64::from(self.arity)
    }

    fn from_bits(bits: u64) -> Option<Self> {
        let [arity, ..] = bits.to_le_bytes();
        Some(PieceSize { arity })
    }
}

impl Fields for Plain {
    fn to_bits(&self) -> u64 {
        self.word as u64 | u64::from(self.rule) << 8
    }

    fn from_bits(bits: u64) -> Option<Self> {
        let [word, rule, ..] = bits.to_le_bytes();
        Some(Plain { word: Word::from_number(word)?, rule })
    }
}

impl Fields for GraphSize {
    fn to_bits(&self) -> u64 {
        u64::from(self.nodes)
    }

    fn from_bits(bits: u64) -> Option<Self> {
        Some(GraphSize { nodes: bits as u16 })
    }
}

impl Fields for Built {
    fn to_bits(&self) -> u64 {
        u64::from(self.nodes) | u64::from(self.bytes) << 16
    }

    fn from_bits(bits: u64) -> Option<Self> {
        Some(Built { nodes: bits as u16, bytes: (bits >> 16) as u32 })
    }
}

impl Fields for Written {
    fn to_bits(&self) -> u64 {
        u64::from(self.bytes)
    }

    fn from_bits(bits: u64) -> Option<Self> {
        Some(Written { bytes: bits as u32 })
    }
}

impl Fields for Walk {
    fn to_bits(&self) -> u64 {
        self.word as u64 | u64::from(self.rule) << 8 | u64::from(self.edges) << 16
    }

    fn from_bits(bits: u64) -> Option<Self> {
        let [word, rule, edges, ..] = bits.to_le_bytes();
        Some(Walk { word: Word::from_number(word)?, rule, edges })
    }
}

impl Fields for Run {
    fn to_bits(&self) -> u64 {
        u64::from(self.results) | u64::from(self.bytes) << 24
    }

    fn from_bits(bits: u64) -> Option<Self> {
        Some(Run { results: bits as u32 & 0xff_ffff, bytes: (bits >> 24) as u32 })
    }
}

/// A call that hands back nothing but its refusal.
impl Fields for () {
    fn to_bits(&self) -> u64 {
        0
    }

    fn from_bits(bits: u64) -> Option<Self> {
        (bits == 0).then_some(())
    }
}

/// The result as the one number that a call of the library returns for it.
pub fn pack<T: Fields>(result: &Result<T, Refusal>) -> u64 {
    match result {
        Ok(fields) => fields.to_bits() << 8,
        Err(refusal) => u64::from(refusal.number()),
    }
}

/// The result that a call packed in this number.
///
/// # Panics
/// If no result packs to it, as when a refusal comes with a field that is not 0.
pub fn unpack<T: Fields>(packed: u64) -> Result<T, Refusal> {
    let result = match packed as u8 {
        0 => T::from_bits(packed >> 8).map(Ok),
        refusal => Refusal::from_number(refusal).map(Err),
    };
    match result {
        Some(result) if pack(&result) == packed => result,
        _ => panic!("no result of this call packs to {packed:#018x}"),
    }
}

#[cfg(test)]
mod tests {
    use super::*;

    #[test]
    fn fields_stand_at_their_bits() {
        let sheet = SheetSize { arity: 2, rules: 64, tests: 64 };
        assert_eq!(pack(&Ok(sheet)), 0x4040_0200);
        assert_eq!(unpack(0x4040_0200), Ok(sheet));
        let plain = Plain { word: Word::Execute, rule: 64 };
        assert_eq!(pack(&Ok(plain)), 0x40_0200);
        assert_eq!(unpack(0x40_0200), Ok(plain));
        let refusal = Refusal::from_number(17).expect("a question");
        assert_eq!(unpack::<PieceSize>(17), Err(refusal));
        let built = Built { nodes: 1024, bytes: 459_781 };
        assert_eq!(pack(&Ok(built)), 0x7_0405_0400 << 8);
        assert_eq!(unpack(pack(&Ok(built))), Ok(built));
        let written = Written { bytes: 0x0001_0203 };
        assert_eq!(pack(&Ok(written)), 0x0102_0300);
        assert_eq!(unpack(0x0102_0300), Ok(written));
        assert_eq!(unpack::<Written>(31).map_err(u8::from), Err(31));
        assert_eq!(unpack::<Written>(1360 << 8), Ok(Written { bytes: 1360 }));
        assert_eq!(unpack::<Written>(38).map_err(u8::from), Err(38));
        let walk = Walk { word: Word::Fail, rule: 0, edges: 64 };
        assert_eq!(pack(&Ok(walk)), 0x4000_0400);
        let run = Run { results: 0x12_3456, bytes: 0xfedc_ba98 };
        assert_eq!(pack(&Ok(run)), 0xfedc_ba98_1234_5600);
        assert_eq!(unpack(pack(&Ok(run))), Ok(run));
    }

    #[test]
    #[should_panic(expected = "no result")]
    fn a_refusal_with_a_field_is_no_result() {
        let _ = unpack::<PieceSize>(0x0211);
    }

    #[test]
    #[should_panic(expected = "no result")]
    fn a_refusal_without_a_question_is_no_result() {
        let _ = unpack::<PieceSize>(33);
    }

    #[test]
    #[should_panic(expected = "no result")]
    fn a_bit_above_the_fields_is_no_result() {
        let _ = unpack::<PieceSize>(0x01_0200);
    }

    #[test]
    #[should_panic(expected = "no result")]
    fn a_fifth_word_is_no_result() {
        let _ = unpack::<Plain>(0x0500);
    }
}
