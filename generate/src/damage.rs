//! Damaged bytes: flipped, cut, put in, taken out, appended, or set to a value near a limit.

use crate::random::Random;

/// Bytes near a limit: counts, arities and kinds.
const TELLING: [u8; 43] = [
    0, 1, 2, 3, 4, 5, 8, 9, 15, 16, 0x11, 0x12, 0x1f, 0x20, 0x21, 0x22, 0x23, 0x24, 0x25, 0x26, 0x27, 0x28,
    0x2f, 0x30, 0x31, 0x32, 0x33, 0x34, 0x35, 0x36, 0x37, 0x3f, 0x40, 0x41, 0x42, 0x43, 0x44, 0x45, 0x46,
    0x47, 0x48, 0x80, 0xff,
];

fn telling_or_any(random: &mut Random) -> u8 {
    if random.percent(70) {
        random.pick(&TELLING)
    } else {
        random.byte()
    }
}

/// Does one damage. The head of the bytes is hit more often than its share.
fn hurt(random: &mut Random, bytes: &mut Vec<u8>) {
    let reach = if random.percent(20) { bytes.len().min(3) } else { bytes.len() };
    let at = random.below(reach + 1);
    match random.below(6) {
        0 => bytes.truncate(at),
        1 => bytes.insert(at, telling_or_any(random)),
        2 => bytes.extend((0..=random.below(4)).map(|_| telling_or_any(random))),
        3 if at < bytes.len() => {
            bytes.remove(at);
        }
        4 if at < bytes.len() => bytes[at] ^= 1 << random.below(8),
        _ if at < bytes.len() => bytes[at] = telling_or_any(random),
        _ => bytes.push(telling_or_any(random)),
    }
}

/// The bytes with one to three damages.
pub fn damaged(random: &mut Random, bytes: &[u8]) -> Vec<u8> {
    let mut bytes = bytes.to_vec();
    for _ in 0..random.pick(&[1, 1, 1, 2, 3]) {
        hurt(random, &mut bytes);
    }
    bytes
}

/// Bytes of no particular shape, after a header that may be right.
pub fn noise(random: &mut Random, kind: u8) -> Vec<u8> {
    let mut bytes = vec![kind, random.between(0, 9) as u8];
    bytes.extend((0..random.below(24)).map(|_| telling_or_any(random)));
    bytes
}
