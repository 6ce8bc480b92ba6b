//! Profiles: what kind of history is written.
use super::full::FULL;
use super::rng::Rng;

#[derive(Clone, Copy, Debug)]
pub enum Act {
    New,
    Again,
    Remove,
    Answer,
    Sync,
    Ask,
    AskAll,
    Plan,
    Cycle,
    Reload,
    Holdings,
    Compare,
    Refuse,
}

use Act::*;
pub const ACTS: [Act; 13] =
    [New, Again, Remove, Answer, Sync, Ask, AskAll, Plan, Cycle, Reload, Holdings, Compare, Refuse];

/// What a profile fixes. Percentages unless said otherwise.
#[derive(Clone)]
pub struct Profile {
    /// Weights in the order of ACTS.
    pub weights: [u64; 13],
    /// Size of the pool of hashes; 0: names that tell branch and index, as a12.
    pub pool: u64,
    /// Largest hash room, and largest journal room (0: the original's).
    pub hashes: u64,
    pub journal: u64,
    /// Blocks loaded or put before the first sync.
    pub first: u64,
    /// Odd links; canonical and orphaned flags; missed targets.
    pub odd: u64,
    pub canonical: u64,
    pub orphaned: u64,
    pub miss: u64,
    /// Odd epochs.
    pub epochs: u64,
    /// Amounts near the top, and unreadable ones.
    pub sums: u64,
    /// Amounts all alike, so that works and tips tie.
    pub ties: u64,
    /// Other spellings of an amount that a hash is known by.
    pub respell: u64,
    /// Further copies in other stores, with marks of their own.
    pub copies: u64,
    /// Numbers from both ends of their range.
    pub edges: u64,
    /// New blocks answered at once; ineligible among the answers.
    pub answered: u64,
    pub ineligible: u64,
    /// Ineligible answers may come late.
    pub late: bool,
    /// A starting version above 0.
    pub versions: u64,
    /// The tree is synced and asked; else the holdings alone.
    pub tree: bool,
    /// Calls, at most.
    pub calls: u64,
}

/// The profile of histories that never sync.
pub const HOLDINGS: &str = "holdings";

pub const PROFILES: [&str; 15] = [
    "tidy", "untidy", "journal", "sums", "answers", "late", "room", "reload", "plans", "ties", "copies", "edges",
    "gaps", "tiny", "mixed",
];

//                      new ag rem ans syn ask all pl cyc rel hol cmp ref
const BASE: Profile = Profile {
    weights: [30, 10, 6, 6, 16, 8, 2, 8, 4, 0, 4, 2, 18],
    pool: 14,
    hashes: 64,
    journal: 0,
    first: 6,
    odd: 12,
    canonical: 45,
    orphaned: 8,
    miss: 12,
    epochs: 25,
    sums: 0,
    ties: 0,
    respell: 5,
    copies: 4,
    edges: 2,
    answered: 10,
    ineligible: 25,
    late: false,
    versions: 0,
    tree: true,
    calls: 400,
};

/// A line from index 0 that evolves, with forks.
const LINES: Profile = Profile {
    weights: [34, 5, 3, 3, 4, 3, 1, 26, 14, 0, 1, 1, 12],
    pool: 0,
    hashes: 300,
    first: 26,
    odd: 2,
    canonical: 4,
    orphaned: 1,
    miss: 7,
    epochs: 14,
    answered: 4,
    ..BASE
};

pub fn profile(name: &str, rng: &mut Rng) -> Option<Profile> {
    Some(match name {
        "tidy" => {
            Profile { pool: 0, hashes: 200, odd: 0, canonical: 25, orphaned: 2, miss: 4, epochs: 8, first: 10, ..BASE }
        }
        "untidy" => Profile { weights: [30, 16, 16, 4, 16, 6, 2, 8, 3, 0, 4, 1, 18], odd: 25, orphaned: 15, ..BASE },
        "journal" => {
            Profile { weights: [26, 14, 14, 3, 16, 5, 1, 5, 2, 1, 18, 0, 16], journal: 8, versions: 30, ..BASE }
        }
        "sums" => Profile { weights: [32, 10, 6, 3, 16, 9, 2, 8, 4, 0, 3, 10, 16], sums: 60, respell: 35, ..BASE },
        "answers" => {
            Profile { weights: [26, 12, 10, 22, 18, 8, 2, 6, 4, 1, 2, 0, 18], answered: 45, ineligible: 40, ..BASE }
        }
        "late" => late(rng),
        "room" => room(),
        "reload" => {
            Profile { weights: [28, 10, 10, 8, 16, 6, 2, 6, 3, 6, 6, 1, 18], answered: 25, versions: 40, ..BASE }
        }
        "plans" => LINES,
        "ties" => Profile { ties: 95, miss: 3, canonical: rng.pick(&[4, 30]), answered: 25, ..LINES },
        "copies" => {
            Profile { weights: [24, 20, 24, 4, 16, 6, 2, 8, 3, 0, 4, 0, 6], pool: 9, copies: 60, orphaned: 35, ..BASE }
        }
        "edges" => Profile {
            weights: [30, 8, 6, 4, 12, 8, 2, 20, 8, 1, 4, 3, 14],
            pool: rng.pick(&[0, 10]),
            edges: 45,
            epochs: 50,
            sums: 10,
            ..BASE
        },
        "gaps" => {
            Profile { weights: [26, 16, 12, 3, 10, 4, 1, 24, 10, 0, 1, 0, 6], canonical: 60, orphaned: 12, ..LINES }
        }
        "tiny" => tiny(rng),
        "mixed" => mixed(rng),
        HOLDINGS => holdings(rng),
        FULL => Profile { pool: 1, late: true, ..BASE },
        _ => return None,
    })
}

fn late(rng: &mut Rng) -> Profile {
    Profile {
        weights: [28, 14, 18, 24, 22, 8, 2, 6, 4, 1, 2, 0, 12],
        pool: 20,
        journal: rng.pick(&[0, 0, 10]),
        answered: 20,
        ineligible: 50,
        late: true,
        odd: 6,
        ..BASE
    }
}

fn room() -> Profile {
    Profile {
        weights: [30, 10, 24, 8, 18, 6, 2, 4, 2, 2, 4, 0, 16],
        pool: 9,
        hashes: 6,
        answered: 25,
        first: 2,
        ..BASE
    }
}

fn mixed(rng: &mut Rng) -> Profile {
    Profile {
        weights: BASE.weights.map(|weight| 1 + rng.below(2 * weight + 3)),
        pool: rng.pick(&[0, 0, 7, 12, 20]),
        hashes: rng.pick(&[10, 64, 200]),
        journal: rng.pick(&[0, 0, 3, 12, 60]),
        first: rng.below(20),
        odd: rng.below(40),
        canonical: rng.below(90),
        orphaned: rng.below(30),
        miss: rng.below(40),
        epochs: rng.below(60),
        sums: rng.pick(&[0, 0, 10, 40]),
        ties: rng.pick(&[0, 0, 50, 90]),
        respell: rng.pick(&[5, 5, 40]),
        copies: rng.pick(&[0, 5, 40]),
        edges: rng.pick(&[0, 2, 20]),
        answered: rng.below(50),
        ineligible: rng.below(50),
        late: rng.percent(25),
        versions: 20,
        tree: true,
        calls: 400,
    }
}

/// Tiny rooms, journals that run over and versions near the top; no sync, so
/// room is freed by a reload alone.
fn holdings(rng: &mut Rng) -> Profile {
    Profile {
        weights: [26, 22, 24, 12, 0, 0, 0, 0, 0, 3, 26, 2, 16],
        pool: rng.pick(&[2, 5, 9, 14, 40]),
        hashes: rng.pick(&[1, 2, 6, 12, 64, 64]),
        journal: rng.pick(&[1, 1, 2, 3, 8, 40, 0]),
        first: rng.below(9),
        odd: 20,
        orphaned: 20,
        sums: rng.pick(&[0, 10, 40]),
        respell: 30,
        copies: rng.pick(&[5, 40]),
        edges: rng.pick(&[2, 30]),
        answered: 20,
        ineligible: 40,
        versions: 40,
        tree: false,
        ..BASE
    }
}

/// Few blocks, small numbers and short histories, so that many of all there
/// are are met.
fn tiny(rng: &mut Rng) -> Profile {
    Profile {
        weights: [20, 14, 8, 8, 8, 2, 1, 30, 10, 0, 0, 0, 2],
        pool: rng.pick(&[3, 4, 5]),
        first: 5,
        odd: rng.pick(&[5, 25]),
        canonical: rng.pick(&[30, 60, 80]),
        miss: 25,
        ties: 60,
        answered: 25,
        ineligible: 50,
        late: rng.percent(30),
        calls: 100,
        ..BASE
    }
}
