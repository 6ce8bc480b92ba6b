//! Document 01, "Amounts".
use crate::Record;
use history::Amount;

/// The value of an amount text: one optional plus sign, then one or more
/// digits, of at most 2^128 - 1. None where the text is unreadable.
pub fn read_amount(text: &str) -> Amount {
    let digits = text.strip_prefix('+').unwrap_or(text);
    let mut value = if digits.is_empty() { None } else { Some(0u128) }?;
    for byte in digits.bytes() {
        let digit = if byte.is_ascii_digit() { Some(byte - b'0') } else { None }?;
        value = value.checked_mul(10)?.checked_add(digit.into())?;
    }
    Some(value)
}

/// Both amounts readable, target above 0, actual at least target.
pub fn meets_target(block: &Record) -> bool {
    matches!((block.target, block.actual), (Some(target), Some(actual)) if target > 0 && actual >= target)
}
