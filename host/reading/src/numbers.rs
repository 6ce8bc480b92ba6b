//! Document 01, "Numbers given back".

/// Why a call is refused.
#[derive(Clone, Copy, Debug, PartialEq, Eq, PartialOrd, Ord)]
#[repr(u8)]
pub enum Refusal {
    Room = 1,
    Kind,
    Index,
    Header,
    Full,
    Version,
    Loaded,
    Generation,
    Unknown,
    Value,
    Final,
    Stale,
    List,
}

impl Refusal {
    pub fn number(self) -> u8 {
        self as u8
    }
}

/// Done, or refused.
pub type Done<T = ()> = Result<T, Refusal>;
