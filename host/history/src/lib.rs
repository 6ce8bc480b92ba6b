//! Histories: one text format for replays, tests and classes.
//!
//! A history is a text of calls, one a line; a replay of it is a text of
//! answers. Any program that holds the tree reads the same histories and must
//! write the same answers, byte for byte. Document 01 says what each call
//! does; this crate only says how calls and answers are written down, and
//! which plain types and traits stand between a history and an engine.
//!
//! ```
//! use history::{read_line, Call, Line};
//!
//! let Line::Call(call) = read_line(b"linked c0ffee") else { panic!() };
//! assert_eq!(call.to_string(), "linked c0ffee");
//! assert!(matches!(read_line(b"# a remark"), Line::Passed));
//! assert!(matches!(read_line(b"linked  c0ffee"), Line::NoCall(_)));
//! ```
mod answer;
mod block;
mod call;
mod engine;
mod hash;
mod reason;
mod sentence;
mod started;
mod timed;
mod words;

pub use answer::Answer;
pub use block::{show_amount, Amount, Block, Choice, Entry, Marks, Plan, Side, Terms, Work};
pub use call::{read_line, Call, Line};
pub use engine::{ask, Ask, Engine};
pub use hash::Hash;
pub use reason::Reason;
pub use started::heard;
pub use timed::Timed;

/// The lines of a history or of its answers, without their ends. The end of
/// the last line may be missing.
pub fn lines(text: &[u8]) -> impl Iterator<Item = &[u8]> {
    let whole = text.strip_suffix(b"\n").unwrap_or(text);
    whole.split(|byte| *byte == b'\n').filter(move |_| !text.is_empty())
}
