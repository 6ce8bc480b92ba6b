//! The comparison of two chains (document 01, "Comparing two chains"): neither
//! call needs a tree, and neither is ever refused.
use crate::boundary::{self, never};
use crate::words::{choice_of, side_words};
use crate::{Choice, Reason, Side};

/// Of two chains the one to follow, and why.
///
/// ```
/// use cadraspes::{choose, Choice, Hash, Reason, Side};
/// # if !cadraspes::linked() { return; }
///
/// let ours = Side { work: Some(8), index: 2, hash: Hash([1; 32]) };
/// let theirs = Side { work: Some(9), index: 1, hash: Hash([2; 32]) };
/// assert_eq!(choose(&ours, &theirs), (Choice::Remote, Reason::PeerWork(9, 8)));
///
/// let unknown = Side { work: None, ..theirs };
/// assert_eq!(choose(&ours, &unknown), (Choice::Local, Reason::LocalOnly(8)));
/// assert_eq!(choose(&ours, &ours), (Choice::Equal, Reason::SameTip(Hash([1; 32]))));
/// ```
pub fn choose(local: &Side<u128>, remote: &Side<u128>) -> (Choice, Reason) {
    let mut out = [0; 6];
    never(boundary::choose(&side_words(local), &local.hash.0, &side_words(remote), &remote.hash.0, &mut out));
    choice_of(&out)
}

/// Whether a tip of this index and epoch covers its nomination epoch, with so
/// many blocks to an epoch.
///
/// ```
/// # if !cadraspes::linked() { return; }
/// assert!(cadraspes::covers(9, 2, 10));
/// assert!(!cadraspes::covers(8, 2, 10));
/// ```
pub fn covers(index: u64, epoch: u64, per_epoch: u64) -> bool {
    boundary::covers(index, epoch, per_epoch) == 1
}
