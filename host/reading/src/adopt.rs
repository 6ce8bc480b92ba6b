//! Document 01, "The two plans": Adopt.
use crate::plans::{Told, Writes};
use crate::{choose, covers, meets_target, Record, View};
use history::{Choice, Plan, Reason, Side, Terms};
use std::cmp::Reverse;

/// The local tip with its walk, and whether its proofs are ok.
struct Local<'a> {
    tip: &'a Record,
    walk: Vec<&'a Record>,
    ok: bool,
}

/// What lies above the first canonical block under a leaf.
struct Extension<'a> {
    ancestor: &'a Record,
    /// Bottom first.
    blocks: Vec<&'a Record>,
    /// The length of the safe front.
    safe: usize,
}

impl<'a> Extension<'a> {
    fn front(&self) -> &[&'a Record] {
        &self.blocks[..self.safe]
    }

    fn partial(&self) -> bool {
        self.safe < self.blocks.len()
    }

    /// Its bottom + 2 × n is at most the local index.
    fn stale(&self, local: &Local, n: u64) -> bool {
        self.blocks[0].index.saturating_add(n.saturating_mul(2)) <= local.tip.index
    }
}

/// Adopt. `told` hears which way it goes.
pub fn adopt(view: &View, terms: &Terms, told: Told) -> Plan {
    let Some((hash, work)) = view.canonical_best() else {
        told("adopt scan: no canonical best");
        return Plan::Scan;
    };
    let local = Local { tip: &view.live[&hash], walk: view.walk(hash), ok: work.ok };
    if view.canonical_count() != local.tip.index + 1 {
        told("adopt scan: canonical count");
        return Plan::Scan;
    }
    let mut writes = Writes::default();
    for leaf in leaves(view).into_iter().filter(|leaf| !leaf.marks.canonical) {
        let Some(extension) = extension(view, leaf, &local, terms, told) else {
            continue;
        };
        if let Some(reason) = accepted(&extension, &local, terms, told) {
            take(&extension, &local, reason, terms, &mut writes, told);
            return writes.plan(extension.safe as u64);
        }
        if extension.stale(&local, terms.n) {
            told("adopt stale");
            extension.blocks.iter().for_each(|block| writes.orphan(block, Reason::Stale, None, terms.clock));
        } else {
            told("adopt refused, not stale");
        }
    }
    told("adopt ended with none accepted");
    writes.plan(0)
}

/// By work and index, both falling, then by rising hash.
fn leaves(view: &View) -> Vec<&Record> {
    let mut leaves: Vec<&Record> = view.leaves().iter().map(|hash| &view.live[hash]).collect();
    leaves.sort_by_key(|leaf| (Reverse((view.linked[&leaf.hash].value, leaf.index)), leaf.hash));
    leaves
}

/// The extension that ends in a leaf; none to pass on.
fn extension<'a>(view: &'a View, leaf: &Record, local: &Local, terms: &Terms, told: Told) -> Option<Extension<'a>> {
    let walk = view.walk(leaf.hash);
    let Some(place) = walk.iter().position(|block| block.marks.canonical) else {
        told("adopt leaf: no canonical below");
        return None;
    };
    let blocks: Vec<&Record> = walk[..place].iter().rev().copied().collect();
    let safe = match covers(local.tip, terms.n) {
        true => blocks.iter().take_while(|block| covers(block, terms.n)).count(),
        false => blocks.len(),
    };
    if !covers(local.tip, terms.n) {
        told("adopt leaf: local does not cover");
    }
    let extension = Extension { ancestor: walk[place], blocks, safe };
    if safe == 0 {
        let stale = extension.stale(local, terms.n);
        told(if stale { "adopt leaf: safe front empty, would be stale" } else { "adopt leaf: safe front empty" });
        return None;
    }
    Some(extension)
}

/// Our walk above the ancestor, highest first.
fn ours<'a>(local: &Local<'a>, ancestor: &Record) -> Vec<&'a Record> {
    local.walk.iter().take_while(|block| block.hash != ancestor.hash).copied().collect()
}

/// The reason for which an extension is accepted; none if it is refused.
fn accepted(extension: &Extension, local: &Local, terms: &Terms, told: Told) -> Option<Reason> {
    let below = |floor: u64| extension.ancestor.index < floor && extension.ancestor.index < local.tip.index;
    if terms.floor.is_some_and(|floor| local.ok && below(floor)) {
        told("adopt refused: floor");
        return None;
    }
    let (choice, reason) = choose(&our_side(extension, local, told), &peer_side(extension));
    let adopted = choice == Choice::Remote;
    told(match (adopted, extension.partial()) {
        (true, false) => "adopt accepted",
        (true, true) => "adopt accepted, partial front",
        (false, false) => "adopt refused: compared",
        (false, true) => "adopt refused: compared, partial front",
    });
    told(compared(reason));
    adopted.then_some(reason)
}

/// Ours runs up the local walk until a block misses its target.
fn our_side(extension: &Extension, local: &Local, told: Told) -> Side<u128> {
    let ours = ours(local, extension.ancestor);
    let run: Vec<&Record> = ours.iter().rev().take_while(|block| meets_target(block)).copied().collect();
    told(match run.len() {
        0 if ours.is_empty() => "adopt extends local",
        0 => "adopt compared with none of ours",
        some if some < ours.len() => "adopt compared with part of ours",
        _ => "adopt compared with all of ours",
    });
    match run.last() {
        Some(top) => Side { work: sum(&run), index: top.index, hash: top.hash },
        None => Side { work: None, index: local.tip.index, hash: local.tip.hash },
    }
}

/// The peer's is the safe front's, unknown if any block in it misses.
fn peer_side(extension: &Extension) -> Side<u128> {
    let front = extension.front();
    let tip = front[front.len() - 1];
    let work = if front.iter().all(|block| meets_target(block)) { sum(front) } else { None };
    Side { work, index: tip.index, hash: tip.hash }
}

/// The actuals of blocks that meet their targets; part of a walk's work, so it
/// fits.
fn sum(blocks: &[&Record]) -> Option<u128> {
    blocks.iter().map(|block| block.actual).sum()
}

/// The name in the coverage table of Adopt's comparison.
fn compared(reason: Reason) -> &'static str {
    match reason {
        Reason::Neither => "adopt compared: neither",
        Reason::PeerOnly(_) => "adopt compared: peer-only",
        Reason::LocalOnly(_) => "adopt compared: local-only",
        Reason::PeerWork(..) => "adopt compared: peer-work",
        Reason::LocalWork(..) => "adopt compared: local-work",
        Reason::PeerTip(..) => "adopt compared: peer-tip",
        Reason::LocalTip(..) => "adopt compared: local-tip",
        Reason::PeerHash => "adopt compared: peer-hash",
        Reason::LocalHash => "adopt compared: local-hash",
        _ => "adopt compared: same-tip",
    }
}

/// Orphans our walk above the ancestor, then promotes the safe front.
fn take(extension: &Extension, local: &Local, reason: Reason, terms: &Terms, writes: &mut Writes, told: Told) {
    for block in ours(local, extension.ancestor) {
        let other = extension.front().iter().find(|safe| safe.index == block.index).map(|safe| safe.hash);
        told(if other.is_some() { "adopt orphaned ours" } else { "adopt orphaned ours, no competing hash" });
        writes.orphan(block, reason, other, terms.clock);
    }
    for block in extension.front() {
        if writes.changed(block) {
            told("adopt promoted over stale");
        }
        writes.promote(block);
    }
}
