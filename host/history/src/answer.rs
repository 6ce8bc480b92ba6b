//! Answers, and how they are written.
use crate::{show_amount, Amount, Block, Choice, Entry, Hash, Plan, Reason, Work};
use std::fmt::{self, Display};

/// The answer to a call. It is written as one line, a list's entries below
/// it, each behind two spaces.
#[derive(Clone, Debug, PartialEq)]
pub enum Answer {
    /// The line is no call, or comes before the first accepted start.
    NoCall(String),
    /// A refusal of document 01, by its number.
    Refused(u8),
    Done,
    /// No block to show, or no changes to be had.
    None,
    Block(Block<Amount>),
    Work(Work),
    Tip(Hash, Work),
    Number(u64),
    Hashes(Vec<Hash>),
    Plan(Plan),
    Chosen(Choice, Reason),
    Amount(Amount),
}

impl Answer {
    /// How many places of a lent list the answer fills.
    pub fn length(&self) -> u64 {
        match self {
            Answer::Hashes(list) => list.len() as u64,
            Answer::Plan(Plan::Apply { entries, .. }) => entries.len() as u64,
            _ => 0,
        }
    }
}

impl Display for Answer {
    fn fmt(&self, f: &mut fmt::Formatter) -> fmt::Result {
        match self {
            Answer::NoCall(why) => write!(f, "? {why}"),
            Answer::Refused(number) => write!(f, "{number}"),
            Answer::Done => write!(f, "0"),
            Answer::None => write!(f, "0 none"),
            Answer::Block(block) => write!(f, "0 {block}"),
            Answer::Work(work) => write!(f, "0 {work}"),
            Answer::Tip(hash, work) => write!(f, "0 {hash} {work}"),
            Answer::Number(number) => write!(f, "0 {number}"),
            Answer::Hashes(list) => list_below(f, &format!("0 {}", list.len()), list),
            Answer::Plan(Plan::Scan) => write!(f, "0 scan"),
            Answer::Plan(Plan::Apply { changed, entries }) => apply(f, *changed, entries),
            Answer::Chosen(choice, reason) => write!(f, "0 {choice} {reason}"),
            Answer::Amount(amount) => write!(f, "0 {}", show_amount(*amount)),
        }
    }
}

fn apply(f: &mut fmt::Formatter, changed: u64, entries: &[Entry]) -> fmt::Result {
    list_below(f, &format!("0 apply {changed} {}", entries.len()), entries)
}

fn list_below<T: Display>(f: &mut fmt::Formatter, head: &str, list: &[T]) -> fmt::Result {
    f.write_str(head)?;
    list.iter().try_for_each(|entry| write!(f, "\n  {entry}"))
}
