//! Document 01, "Numbers given back".
use std::fmt;

/// Why a call was refused. It changed nothing.
#[derive(Clone, Copy, Debug, PartialEq, Eq, PartialOrd, Ord, Hash)]
#[repr(u8)]
pub enum Refusal {
    Room = 1,
    Kind,
    Index,
    Header,
    Full,
    Version,
    Loaded,
    Generation,
    Unknown,
    Value,
    Final,
    Stale,
    List,
}

/// All of them, by their numbers, with their names and when they are given.
const ALL: [(Refusal, &str, &str); 13] = [
    (Refusal::Room, "ROOM", "a room is out of range, or the memory shorter than the rooms need"),
    (Refusal::Kind, "KIND", "the store is not 0, 1 or 2"),
    (Refusal::Index, "INDEX", "the index is 2^64 - 1"),
    (Refusal::Header, "HEADER", "the hash has room under another header"),
    (Refusal::Full, "FULL", "the hash has no room and all room is taken"),
    (Refusal::Version, "VERSION", "a touch is due at version 2^64 - 1"),
    (Refusal::Loaded, "LOADED", "loading has closed"),
    (Refusal::Generation, "GENERATION", "the generation is not above the present one"),
    (Refusal::Unknown, "UNKNOWN", "the hash has no room"),
    (Refusal::Value, "VALUE", "the answer is not 0, 1 or 2"),
    (Refusal::Final, "FINAL", "another answer is held, and final"),
    (Refusal::Stale, "STALE", "no sync covers the present"),
    (Refusal::List, "LIST", "the lent list is too short"),
];

impl Refusal {
    /// The refusal of a number, 1 to 13.
    pub fn of(number: u64) -> Option<Refusal> {
        ALL.into_iter().map(|(refusal, ..)| refusal).find(|refusal| u64::from(refusal.number()) == number)
    }

    pub fn number(self) -> u8 {
        self as u8
    }

    /// Document 01's name of it.
    pub fn name(self) -> &'static str {
        ALL[self as usize - 1].1
    }
}

impl fmt::Display for Refusal {
    fn fmt(&self, f: &mut fmt::Formatter) -> fmt::Result {
        write!(f, "{} {}: {}", self.number(), self.name(), ALL[*self as usize - 1].2)
    }
}

impl std::error::Error for Refusal {}
