//! Document 01, "The two plans": Select.
use crate::plans::{holds, Told, Writes};
use crate::{choose, covers, Record, View};
use history::{Choice, Hash, Plan, Reason, Side, Terms, Work};

/// A tip with its work and its walk, highest first.
struct Tip<'a> {
    block: &'a Record,
    work: Work,
    walk: Vec<&'a Record>,
}

fn tip(view: &View, (hash, work): (Hash, Work)) -> Tip<'_> {
    Tip { block: &view.live[&hash], work, walk: view.walk(hash) }
}

/// A side is known exactly if its proofs are ok.
fn side(tip: &Tip) -> Side<u128> {
    Side { work: tip.work.ok.then_some(tip.work.value), index: tip.block.index, hash: tip.block.hash }
}

/// Select. `told` hears which way it goes.
pub fn select(view: &View, terms: &Terms, told: Told) -> Plan {
    let Some(best) = view.best() else {
        told("select scan: no best");
        return Plan::Scan;
    };
    let Some(local) = view.canonical_best() else {
        told("select scan: no canonical best");
        return Plan::Scan;
    };
    let (best, local) = (tip(view, best), tip(view, local));
    let mut writes = Writes::default();
    let aside = off_the_local_walk(view, &local, terms, &mut writes, told);
    let demoted = u64::from(!writes.is_empty());
    if best.block.hash == local.block.hash && aside.is_empty() {
        told("select stop: best is local");
        return writes.plan(demoted);
    }
    let Some(fork) = best.walk.iter().find(|block| holds(&local.walk, block)) else {
        told("select scan: no common ancestor");
        return Plan::Scan;
    };
    let refused =
        local.work.ok && (under_floor(&best, &local, fork, &aside, terms, told) || drops(&best, &local, terms, told));
    if refused || !switches(&best, &local, fork, &aside, told) {
        return writes.plan(demoted);
    }
    switch(&best, &local, fork, &aside, &mut writes, told);
    writes.plan(1)
}

/// Demotes the canonical blocks off the local walk, above the floor or with no
/// floor; gives back those kept aside at or below it.
fn off_the_local_walk<'a>(
    view: &'a View,
    local: &Tip,
    terms: &Terms,
    writes: &mut Writes,
    told: Told,
) -> Vec<&'a Record> {
    let mut aside = Vec::new();
    if view.canonical_count() != local.block.index + 1 {
        for block in view.live.values().filter(|block| block.marks.canonical && !holds(&local.walk, block)) {
            match terms.floor {
                Some(floor) if block.index <= floor => aside.push(block),
                _ => writes.demote(block, Reason::OffSpine),
            }
        }
    }
    told(if writes.is_empty() { "select nothing off-spine to demote" } else { "select demoted off-spine" });
    if !aside.is_empty() {
        told("select with blocks aside");
    }
    aside
}

/// A floor is given and either the fork is below both floor and local or a
/// block aside is off best's walk.
fn under_floor(best: &Tip, local: &Tip, fork: &Record, aside: &[&Record], terms: &Terms, told: Told) -> bool {
    let Some(floor) = terms.floor else {
        return false;
    };
    if fork.index < floor && fork.index < local.block.index {
        told("select stop: fork under floor");
        return true;
    }
    let off = aside.iter().any(|block| !holds(&best.walk, block));
    if off {
        told("select stop: aside off best's walk");
    }
    off
}

/// Local covers its nomination epoch and best doesn't.
fn drops(best: &Tip, local: &Tip, terms: &Terms, told: Told) -> bool {
    let drops = covers(local.block, terms.n) && !covers(best.block, terms.n);
    if drops {
        told("select stop: nomination");
    }
    drops
}

/// Best is adopted, or the fork is local and all aside are on best's walk.
fn switches(best: &Tip, local: &Tip, fork: &Record, aside: &[&Record], told: Told) -> bool {
    let (choice, reason) = choose(&side(local), &side(best));
    let adopted = choice == Choice::Remote;
    let fills = fork.hash == local.block.hash && aside.iter().all(|block| holds(&best.walk, block));
    told(match (adopted, fills, aside.is_empty()) {
        (true, true, _) => "select switch: adopted, fork is local",
        (true, false, _) => "select switch: adopted, fork below local",
        (false, true, _) => "select switch: not adopted, fork is local",
        (false, false, true) => "select stop: compared",
        (false, false, false) => "select stop: compared, blocks aside",
    });
    told(compared(reason));
    adopted || fills
}

/// The name in the coverage table of Select's comparison.
fn compared(reason: Reason) -> &'static str {
    match reason {
        Reason::SameTip(_) => "select compared: same-tip",
        Reason::Neither => "select compared: neither",
        Reason::PeerOnly(_) => "select compared: peer-only",
        Reason::LocalOnly(_) => "select compared: local-only",
        Reason::PeerWork(..) => "select compared: peer-work",
        Reason::LocalWork(..) => "select compared: local-work",
        Reason::PeerTip(..) => "select compared: peer-tip",
        Reason::LocalTip(..) => "select compared: local-tip",
        Reason::PeerHash => "select compared: peer-hash",
        _ => "select compared: local-hash",
    }
}

fn switch(best: &Tip, local: &Tip, fork: &Record, aside: &[&Record], writes: &mut Writes, told: Told) {
    for block in best.walk.iter().take_while(|block| block.hash != fork.hash) {
        if !writes.marks_now(block).canonical {
            if writes.changed(block) {
                told("select switch: promoted what was demoted");
            }
            writes.promote(block);
        }
    }
    for block in local.walk.iter().take_while(|block| block.hash != fork.hash) {
        writes.demote(block, Reason::Competing);
    }
    for block in aside.iter().filter(|block| !holds(&best.walk, block)) {
        told("select switch: aside demoted");
        writes.demote(block, Reason::Competing);
    }
}
