//! Hashes: 32 bytes, written as hex with the leading zeros dropped.
use std::fmt;

/// A block's hash. Its order is the order of its 64 hex characters.
#[derive(Clone, Copy, PartialEq, Eq, PartialOrd, Ord)]
pub struct Hash(pub [u8; 32]);

impl Hash {
    /// Reads 1 to 64 lowercase hex digits, filled with zeros on the left.
    pub fn read(word: &str) -> Option<Hash> {
        if !(1..=64).contains(&word.len()) {
            return None;
        }
        let mut bytes = [0; 32];
        for (place, digit) in word.bytes().rev().enumerate() {
            let value = match digit {
                b'0'..=b'9' => digit - b'0',
                b'a'..=b'f' => digit - b'a' + 10,
                _ => return None,
            };
            bytes[31 - place / 2] |= value << (4 * (place % 2));
        }
        Some(Hash(bytes))
    }

    /// All 64 hex characters, as the original holds a hash.
    pub fn hex(&self) -> String {
        let digit = |value: u8| char::from(b"0123456789abcdef"[usize::from(value)]);
        self.0.iter().flat_map(|byte| [digit(byte >> 4), digit(byte & 15)]).collect()
    }
}

/// The short form: no leading zeros, one digit at least.
impl fmt::Display for Hash {
    fn fmt(&self, f: &mut fmt::Formatter) -> fmt::Result {
        let hex = self.hex();
        let short = hex.trim_start_matches('0');
        f.write_str(if short.is_empty() { "0" } else { short })
    }
}

impl fmt::Debug for Hash {
    fn fmt(&self, f: &mut fmt::Formatter) -> fmt::Result {
        write!(f, "{self}")
    }
}
