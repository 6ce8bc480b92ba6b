//! What Rust's own reader of amounts says of texts.
use history::{lines, show_amount};

/// For each line, the value that `str::parse::<u128>` gives, or `?`; a text
/// that is not UTF-8 is `?`.
pub fn amounts(texts: &[u8]) -> String {
    let read = |text: &[u8]| std::str::from_utf8(text).ok().and_then(|text| text.parse::<u128>().ok());
    lines(texts).map(|text| show_amount(read(text)) + "\n").collect()
}
