//! Document 01, "Comparing two chains".
use crate::Record;
use history::{Choice, Reason, Side};

/// `choose_verified`: which side wins, and why.
pub fn choose(local: &Side<u128>, remote: &Side<u128>) -> (Choice, Reason) {
    use Choice::*;
    if local.hash == remote.hash {
        return (Equal, Reason::SameTip(local.hash));
    }
    let (ours, theirs) = match (local.work, remote.work) {
        (None, None) => return (Local, Reason::Neither),
        (None, Some(theirs)) => return (Remote, Reason::PeerOnly(theirs)),
        (Some(ours), None) => return (Local, Reason::LocalOnly(ours)),
        (Some(ours), Some(theirs)) => (ours, theirs),
    };
    if theirs > ours {
        (Remote, Reason::PeerWork(theirs, ours))
    } else if ours > theirs {
        (Local, Reason::LocalWork(ours, theirs))
    } else if remote.index > local.index {
        (Remote, Reason::PeerTip(remote.index, local.index))
    } else if local.index > remote.index {
        (Local, Reason::LocalTip(local.index, remote.index))
    } else if remote.hash < local.hash {
        (Remote, Reason::PeerHash)
    } else {
        (Local, Reason::LocalHash)
    }
}

/// A block covers its nomination epoch, with `n` blocks per epoch.
pub fn covers(block: &Record, n: u64) -> bool {
    block.epoch < 2 || n == 0 || block.index.saturating_add(1) >= (block.epoch - 2).saturating_mul(n).saturating_add(n)
}
