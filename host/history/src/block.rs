//! The plain records that calls take and answers give.
use crate::{Hash, Reason};
use std::fmt;

/// The value of an amount text; none where it is unreadable or unknown.
pub type Amount = Option<u128>;

/// An AMOUNT of an answer: `0x` and hex, or `?`.
pub fn show_amount(amount: Amount) -> String {
    amount.map_or("?".to_string(), |value| format!("{value:#x}"))
}

/// A block record. `A` is what stands for its two amounts: the texts
/// (`String`) in a call, their values ([`Amount`]) in an answer.
#[derive(Clone, Copy, Debug, PartialEq)]
pub struct Block<A> {
    pub hash: Hash,
    pub index: u64,
    pub epoch: u64,
    pub prev: Hash,
    pub target: A,
    pub actual: A,
    pub marks: Marks,
}

/// What a record holds beside its header: the two flags and the optional
/// three.
#[derive(Clone, Copy, Debug, Default, PartialEq)]
pub struct Marks {
    pub orphaned: bool,
    pub canonical: bool,
    /// The orphaned time.
    pub time: Option<i64>,
    pub reason: Option<Reason>,
    /// The competing hash.
    pub other: Option<Hash>,
}

/// Work of a walk from index 0, and whether its proofs are ok.
#[derive(Clone, Copy, Debug, PartialEq)]
pub struct Work {
    pub value: u128,
    pub ok: bool,
}

/// What both plans are asked with: the floor, if one is given, the blocks per
/// epoch and the clock.
#[derive(Clone, Copy, Debug, PartialEq)]
pub struct Terms {
    pub floor: Option<u64>,
    pub n: u64,
    pub clock: i64,
}

/// A block that a plan changed, with its marks as they stand after the plan.
#[derive(Clone, Copy, Debug, PartialEq)]
pub struct Entry {
    pub hash: Hash,
    pub marks: Marks,
}

/// A plan, its entries by index and then hash.
#[derive(Clone, Debug, PartialEq)]
pub enum Plan {
    Scan,
    Apply { changed: u64, entries: Vec<Entry> },
}

/// One side of a comparison. `A` is an amount text or its value; none is
/// unknown.
#[derive(Clone, Copy, Debug, PartialEq)]
pub struct Side<A> {
    pub work: Option<A>,
    pub index: u64,
    pub hash: Hash,
}

/// Which side a comparison chose.
#[derive(Clone, Copy, Debug, PartialEq)]
pub enum Choice {
    Local,
    Remote,
    Equal,
}

/// `-`, or the value.
pub(crate) fn or_dash<T: fmt::Display>(value: Option<T>) -> String {
    value.map_or("-".to_string(), |value| value.to_string())
}

/// FLAGS TIME REASON OTHER
impl fmt::Display for Marks {
    fn fmt(&self, f: &mut fmt::Formatter) -> fmt::Result {
        let flags = match (self.orphaned, self.canonical) {
            (false, false) => "-",
            (true, false) => "o",
            (false, true) => "c",
            (true, true) => "oc",
        };
        write!(f, "{flags} {} {} {}", or_dash(self.time), or_dash(self.reason), or_dash(self.other))
    }
}

/// A block of a call.
impl fmt::Display for Block<String> {
    fn fmt(&self, f: &mut fmt::Formatter) -> fmt::Result {
        let Block { hash, index, epoch, prev, target, actual, marks } = self;
        write!(f, "{hash} {index} {epoch} {prev} \"{target}\" \"{actual}\" {marks}")
    }
}

/// A block of an answer.
impl fmt::Display for Block<Amount> {
    fn fmt(&self, f: &mut fmt::Formatter) -> fmt::Result {
        let Block { hash, index, epoch, prev, marks, .. } = self;
        let (target, actual) = (show_amount(self.target), show_amount(self.actual));
        write!(f, "{hash} {index} {epoch} {prev} {target} {actual} {marks}")
    }
}

impl fmt::Display for Work {
    fn fmt(&self, f: &mut fmt::Formatter) -> fmt::Result {
        write!(f, "{:#x} {}", self.value, if self.ok { "ok" } else { "no" })
    }
}

impl fmt::Display for Entry {
    fn fmt(&self, f: &mut fmt::Formatter) -> fmt::Result {
        write!(f, "{} {}", self.hash, self.marks)
    }
}

impl fmt::Display for Terms {
    fn fmt(&self, f: &mut fmt::Formatter) -> fmt::Result {
        write!(f, "{} {} {}", or_dash(self.floor), self.n, self.clock)
    }
}

impl fmt::Display for Side<String> {
    fn fmt(&self, f: &mut fmt::Formatter) -> fmt::Result {
        match &self.work {
            Some(text) => write!(f, "\"{text}\"")?,
            None => f.write_str("?")?,
        }
        write!(f, " {} {}", self.index, self.hash)
    }
}

impl fmt::Display for Choice {
    fn fmt(&self, f: &mut fmt::Formatter) -> fmt::Result {
        f.write_str(match self {
            Choice::Local => "local",
            Choice::Remote => "remote",
            Choice::Equal => "equal",
        })
    }
}
