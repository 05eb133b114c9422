//! Bytes from hexadecimal text, and back.

/// The bytes that this text spells; spaces and bars part them at will.
///
/// # Panics
/// If the text holds anything else than pairs of hexadecimal digits, spaces and bars.
pub fn from_hex(text: &str) -> Vec<u8> {
    let digits: String = text.chars().filter(|c| !c.is_whitespace() && *c != '|').collect();
    read_hex(&digits).unwrap_or_else(|fault| panic!("{fault}: {text}"))
}

/// The bytes that these hexadecimal digits spell, or what is wrong with them.
pub fn read_hex(digits: &str) -> Result<Vec<u8>, String> {
    let mut bytes = Vec::with_capacity(digits.len() / 2);
    let mut high = None;
    for c in digits.chars() {
        let digit = c.to_digit(16).ok_or_else(|| format!("{c:?} is no hexadecimal digit"))? as u8;
        match high.take() {
            Some(first) => bytes.push(first << 4 | digit),
            None => high = Some(digit),
        }
    }
    match high {
        Some(_) => Err("an odd number of hexadecimal digits".into()),
        None => Ok(bytes),
    }
}

/// The bytes as hexadecimal digits.
pub fn to_hex(bytes: &[u8]) -> String {
    const DIGITS: &[u8; 16] = b"0123456789abcdef";
    let digit = |at: u8| char::from(DIGITS[usize::from(at & 15)]);
    bytes.iter().flat_map(|byte| [digit(byte >> 4), digit(*byte)]).collect()
}
