//! Reasons: a kind of sentence of document 01 with the numbers it prints.
use crate::words::number;
use crate::{show_amount, Hash};
use std::fmt;

/// Why a comparison chose as it did, or why a plan changed a block.
#[derive(Clone, Copy, Debug, PartialEq)]
pub enum Reason {
    SameTip(Hash),
    Neither,
    PeerOnly(u128),
    LocalOnly(u128),
    /// The peer's work, then ours.
    PeerWork(u128, u128),
    /// Our work, then the peer's.
    LocalWork(u128, u128),
    /// The peer's tip, then ours.
    PeerTip(u64, u64),
    /// Our tip, then the peer's.
    LocalTip(u64, u64),
    PeerHash,
    LocalHash,
    OffSpine,
    Competing,
    Stale,
}

impl Reason {
    /// The word before the numbers.
    pub fn kind(&self) -> &'static str {
        match self {
            Reason::SameTip(_) => "same-tip",
            Reason::Neither => "neither",
            Reason::PeerOnly(_) => "peer-only",
            Reason::LocalOnly(_) => "local-only",
            Reason::PeerWork(..) => "peer-work",
            Reason::LocalWork(..) => "local-work",
            Reason::PeerTip(..) => "peer-tip",
            Reason::LocalTip(..) => "local-tip",
            Reason::PeerHash => "peer-hash",
            Reason::LocalHash => "local-hash",
            Reason::OffSpine => "off-spine",
            Reason::Competing => "competing",
            Reason::Stale => "stale",
        }
    }

    /// Reads a reason as it is written in a history.
    pub fn read(word: &str) -> Option<Reason> {
        let parts: Vec<&str> = word.split(':').collect();
        Some(match parts[..] {
            ["same-tip", hash] => Reason::SameTip(Hash::read(hash)?),
            ["neither"] => Reason::Neither,
            ["peer-only", work] => Reason::PeerOnly(amount(work)?),
            ["local-only", work] => Reason::LocalOnly(amount(work)?),
            ["peer-work", remote, local] => Reason::PeerWork(amount(remote)?, amount(local)?),
            ["local-work", local, remote] => Reason::LocalWork(amount(local)?, amount(remote)?),
            ["peer-tip", remote, local] => Reason::PeerTip(number(remote)?, number(local)?),
            ["local-tip", local, remote] => Reason::LocalTip(number(local)?, number(remote)?),
            ["peer-hash"] => Reason::PeerHash,
            ["local-hash"] => Reason::LocalHash,
            ["off-spine"] => Reason::OffSpine,
            ["competing"] => Reason::Competing,
            ["stale"] => Reason::Stale,
            _ => return None,
        })
    }
}

/// An AMOUNT of a reason: exactly as it would be answered, never `?`.
fn amount(word: &str) -> Option<u128> {
    let value = u128::from_str_radix(word.strip_prefix("0x")?, 16).ok()?;
    (show_amount(Some(value)) == word).then_some(value)
}

impl fmt::Display for Reason {
    fn fmt(&self, f: &mut fmt::Formatter) -> fmt::Result {
        f.write_str(self.kind())?;
        match self {
            Reason::SameTip(hash) => write!(f, ":{hash}"),
            Reason::PeerOnly(work) | Reason::LocalOnly(work) => write!(f, ":{work:#x}"),
            Reason::PeerWork(one, other) | Reason::LocalWork(one, other) => write!(f, ":{one:#x}:{other:#x}"),
            Reason::PeerTip(one, other) | Reason::LocalTip(one, other) => write!(f, ":{one}:{other}"),
            _ => Ok(()),
        }
    }
}
