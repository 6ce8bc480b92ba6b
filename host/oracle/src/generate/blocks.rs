//! Writing blocks: headers, amounts, marks, and what is done to them.
use super::rng::Rng;
use super::{small_name, Gen};
use history::{Block, Hash, Marks, Reason};

const TOP: u128 = u128::MAX;
const UNREADABLE: [&str; 12] =
    ["", "+", "-0", "x", "1,000", " 7", "7 ", "++7", "0x7", "340282366920938463463374607431768211456", "7.0", "7_0"];

/// A text that now and then is none of its value.
fn odd_text(value: u64, rng: &mut Rng) -> String {
    match rng.below(60) {
        0 => rng.pick(&UNREADABLE).to_string(),
        1 => "0".to_string(),
        _ => value.to_string(),
    }
}

impl Gen {
    /// A new name after its parent's: the branch's letter and the index.
    pub(super) fn branch_name(&mut self, parent: Option<Hash>) -> Hash {
        let index = parent.map_or(0, |parent| self.heads[&parent].index + 1);
        let mut letter = parent.and_then(|parent| parent.to_string().chars().next()).unwrap_or('c');
        let read = |word: String| Hash::read(&word).expect("hex digits");
        loop {
            let name = read(format!("{letter}{index}"));
            if !self.heads.contains_key(&name) && self.rng.percent(90) {
                return name;
            }
            letter = self.rng.pick(&['a', 'b', 'c', 'd', 'e', 'f', '1', '2', '3']);
            if self.rng.percent(5) {
                return read(format!("{letter}{index}{:x}", 0xa00 + self.rng.below(0x600)));
            }
        }
    }

    /// Target and actual.
    pub(super) fn amounts(&mut self) -> (String, String) {
        let rng = &mut self.rng;
        if rng.percent(self.p.sums) {
            let near = [TOP, TOP - 1, TOP - 5, TOP / 2, TOP / 2 + 1, 1 << 127, 1 << 64, (1 << 64) - 1, 0, 1, 7];
            let mut one =
                || if rng.percent(14) { rng.pick(&UNREADABLE).to_string() } else { rng.pick(&near).to_string() };
            let (target, actual) = (one(), one());
            return (if self.rng.percent(50) { "1".to_string() } else { target }, actual);
        }
        if rng.percent(self.p.ties) {
            let actual = rng.pick(&[1, 1, 2]);
            let target = if rng.percent(self.p.miss) { actual + 1 } else { 1 };
            return (target.to_string(), actual.to_string());
        }
        let actual = 1 + rng.below(4) + self.heavy;
        let target = if rng.percent(self.p.miss) { actual + 1 + rng.below(2) } else { 1 + rng.below(actual) };
        (odd_text(target, rng), odd_text(actual, rng))
    }

    /// Another text of the same value, now and then.
    pub(super) fn respell(&mut self, text: &str) -> String {
        if !self.rng.percent(self.p.respell) {
            return text.to_string();
        }
        match reading::read_amount(text) {
            Some(value) => {
                let zeros = self.rng.pick(&["", "0", "00", "+", "+0", "+0000000000000000000000000000000000000000"]);
                format!("{zeros}{value}")
            }
            None => self.rng.pick(&UNREADABLE).to_string(),
        }
    }

    /// Previous hash and index of a new header.
    fn link(&mut self, name: Hash, parent: Option<Hash>, odd: bool) -> (Hash, u64) {
        let child = self.heads.values().find(|block| block.prev == name && block.index > 0).map(|block| block.index);
        if let Some(child) = child.filter(|_| self.p.pool > 0 && self.rng.percent(60)) {
            // The parent some block waits for.
            let index = child - 1;
            let below = self.heads.values().filter(|block| index.checked_sub(1) == Some(block.index));
            let below: Vec<Hash> = below.map(|block| block.hash).collect();
            return (if below.is_empty() { self.name() } else { self.rng.pick(&below) }, index);
        }
        let (prev, index) = match parent {
            Some(parent) => (parent, self.heads[&parent].index + 1),
            None => (self.rng.pick(&[small_name(0), name]), 0),
        };
        if odd {
            self.odd_link(name, prev, index)
        } else {
            (prev, index)
        }
    }

    fn odd_link(&mut self, name: Hash, prev: Hash, index: u64) -> (Hash, u64) {
        match self.rng.below(7) {
            0 => (prev, self.rng.below(6)),
            1 => (name, index),
            2 => (self.name(), self.rng.below(5)),
            3 => (self.name(), 0),
            // A parent that may come later, or never.
            4 if self.p.pool > 0 => (self.rng.pick(&self.pool), 1 + self.rng.below(4)),
            // A twin: another's previous hash under an index beside it.
            5 => self.known().map_or((prev, index), |twin| (self.heads[&twin].prev, self.rng.below(4))),
            _ => (prev, self.rng.pick(&[0, 1, u64::MAX - 1, u64::MAX - 2])),
        }
    }

    fn epoch(&mut self, index: u64) -> u64 {
        let epoch = index / self.n;
        if !self.rng.percent(self.p.epochs) {
            return epoch;
        }
        let ends = [u64::MAX, u64::MAX, u64::MAX - 1, (1 << 63) + 2, (1 << 62) + 2, (1 << 63) + 1, (1 << 32) + 2];
        match self.rng.below(8) {
            _ if self.rng.percent(self.p.edges) => self.rng.pick(&ends),
            0 => self.rng.pick(&ends),
            1..=3 => self.rng.below(7),
            _ => epoch.saturating_add(1 + self.rng.below(3)),
        }
    }

    /// Settles the header that `name` goes by.
    pub(super) fn head(&mut self, name: Hash, parent: Option<Hash>, odd: bool) {
        let (prev, index) = self.link(name, parent, odd);
        let epoch = self.epoch(index);
        let (target, mut actual) = self.amounts();
        if index == 0 && self.rng.percent(80) {
            actual = self.rng.below(6).to_string();
        }
        let block = Block { hash: name, index, epoch, prev, target, actual, marks: Marks::default() };
        self.heads.insert(name, block);
    }

    pub(super) fn new_block(&mut self) {
        let parent = self.parent();
        self.child(parent);
    }

    /// A few blocks in a row on one fork of the local line.
    pub(super) fn burst(&mut self) {
        let Some((mut tip, _)) = self.view().canonical_best() else {
            return self.new_block();
        };
        for _ in 0..self.rng.below(9) {
            let view = self.view();
            tip = view.parent(&view.live[&tip]).map_or(tip, |parent| parent.hash);
        }
        let (epochs, miss) = (self.p.epochs, self.p.miss);
        if self.rng.percent(30) {
            self.p.epochs = 35;
        }
        self.heavy = self.rng.pick(&[0, 0, 2, 6]);
        for _ in 0..1 + self.rng.below(6) {
            match self.child(Some(tip)) {
                Some(next) => tip = next,
                None => break,
            }
        }
        // Tops side by side, some of which miss their target.
        if self.rng.percent(30) {
            self.p.miss = 50;
            self.child(Some(tip));
            self.child(Some(tip));
        }
        (self.p.epochs, self.p.miss, self.heavy) = (epochs, miss, 0);
    }

    /// Two blocks of equal work on the local tip: a canonical one that is
    /// ineligible in time, and one that is not canonical.
    pub(super) fn twins(&mut self) {
        let Some((tip, _)) = self.view().canonical_best() else {
            return self.new_block();
        };
        let (canonical, orphaned) = (self.p.canonical, self.p.orphaned);
        self.p.orphaned = 0;
        for twin in [100, 0] {
            self.p.canonical = twin;
            let name = self.branch_name(Some(tip));
            self.head(name, Some(tip), false);
            self.heads.entry(name).and_modify(|block| {
                (block.target, block.actual) = ("1".to_string(), "1".to_string());
            });
            self.write(name);
            let open = self.has_room(name) && self.watched.domain.final_answer(name).is_none();
            if twin == 100 && open && !self.watched.domain.seen_by_sync(name) {
                self.emit(format!("answer {name} 2"));
            }
        }
        (self.p.canonical, self.p.orphaned) = (canonical, orphaned);
    }

    /// Indexes near the top are left alone, but for those who look for them.
    fn may_build_on(&self, name: Hash) -> bool {
        let limit = if self.p.edges > 10 { u64::MAX } else { 1000 };
        self.heads.get(&name).is_some_and(|block| block.index < limit)
    }

    /// Puts a new block on a parent, or one of the pool as it is known; gives
    /// its hash if it has the parent asked for.
    fn child(&mut self, parent: Option<Hash>) -> Option<Hash> {
        let odd = self.rng.percent(self.p.odd);
        let parent = parent.filter(|parent| self.may_build_on(*parent));
        let mut name = if self.p.pool == 0 { self.branch_name(parent) } else { self.rng.pick(&self.pool) };
        let all_taken = self.holding().rooms.len() as u64 >= self.holding().hash_room;
        if all_taken && !self.has_room(name) && self.rng.percent(85) {
            let rooms: Vec<Hash> = self.holding().rooms.keys().copied().collect();
            name = self.rng.pick(&rooms);
        }
        let parent = parent.filter(|parent| *parent != name);
        if !self.heads.contains_key(&name) || (!self.has_room(name) && self.rng.percent(30)) {
            self.head(name, parent, odd);
        }
        self.write(name);
        if self.rng.percent(self.p.answered) {
            self.answer_for(name);
        }
        let head = self.heads.get(&name)?;
        (Some(head.prev) == parent).then_some(head.hash)
    }

    /// A block to build on: the highest, the best, the local tip, or any.
    fn parent(&mut self) -> Option<Hash> {
        let any = self.known();
        let tips = [self.view().best(), self.view().canonical_best()].map(|tip| tip.map(|(hash, _)| hash));
        if tips[0].is_none() && self.rng.percent(40) {
            return None;
        }
        let leaves = self.view().leaves();
        let tall = self.heads.values().filter(|block| block.index < 1000).max_by_key(|block| block.index);
        let tall = tall.map(|block| block.hash);
        let chosen = match self.rng.below(10) {
            0 => tall,
            1 | 2 => tips[0],
            3 | 4 => tips[1],
            5 | 6 if !leaves.is_empty() => Some(self.rng.pick(&leaves)),
            7 if self.rng.percent(15) => return None,
            _ => any,
        };
        chosen.filter(|name| self.may_build_on(*name)).or(any.filter(|name| self.may_build_on(*name)))
    }

    pub(super) fn has_room(&self, name: Hash) -> bool {
        self.holding().rooms.contains_key(&name)
    }

    /// Puts (or loads) a name under its header with marks of its own.
    pub(super) fn write(&mut self, name: Hash) {
        let mut stores = vec![self.rng.pick(&[0, 0, 0, 0, 1, 1, 2])];
        while stores.len() < 3 && self.rng.percent(self.p.copies) {
            stores.push(self.rng.below(3));
        }
        for store in stores {
            let block = self.marked(name);
            let verb = if self.loads && self.holding().loading { "load" } else { "put" };
            self.emit(format!("{verb} {store} {block}"));
        }
    }

    pub(super) fn marked(&mut self, name: Hash) -> Block<String> {
        let mut block = self.heads[&name].clone();
        (block.target, block.actual) = (self.respell(&block.target), self.respell(&block.actual));
        let base = block.index == 0 && self.rng.percent(60);
        let canonical = base || self.rng.percent(self.p.canonical);
        let orphaned = self.rng.percent(if canonical { self.p.orphaned / 3 } else { self.p.orphaned });
        let often = if orphaned { 70 } else { 6 };
        let time = self.rng.percent(often).then(|| self.clock());
        let reason = self.rng.percent(often).then(|| self.reason());
        let other = self.rng.percent(often).then(|| self.name());
        block.marks = Marks { orphaned, canonical, time, reason, other };
        block
    }

    pub(super) fn reason(&mut self) -> Reason {
        let (a, b) = (self.rng.below(20), self.rng.below(20));
        let (x, y) = (u128::from(a), self.rng.pick(&[u128::from(b), TOP - u128::from(b)]));
        let name = self.name();
        self.rng.pick(&[
            Reason::SameTip(name),
            Reason::Neither,
            Reason::PeerOnly(x),
            Reason::LocalOnly(y),
            Reason::PeerWork(y, x),
            Reason::LocalWork(x, y),
            Reason::PeerTip(a, b),
            Reason::LocalTip(b, u64::MAX - a),
            Reason::PeerHash,
            Reason::LocalHash,
            Reason::OffSpine,
            Reason::Competing,
            Reason::Stale,
        ])
    }

    pub(super) fn clock(&mut self) -> i64 {
        let low = self.rng.below(1000) as i64;
        self.rng.pick(&[low, low, low, low, -low, i64::MIN, i64::MAX])
    }

    pub(super) fn again(&mut self) {
        let Some(name) = self.known() else { return };
        if !self.has_room(name) && self.rng.percent(25) {
            // Its room is gone, so it may come back under another header.
            let parent = self.parent().filter(|parent| *parent != name);
            self.head(name, parent, false);
        }
        self.write(name);
    }

    pub(super) fn remove(&mut self) {
        let mut name = self.name();
        if self.heads.get(&name).is_some_and(|block| block.index == 0) && self.rng.percent(60) {
            name = self.name();
        }
        let copies = self.holding().rooms.get(&name).map(|room| room.copies);
        let held = copies.and_then(|copies| copies.iter().position(Option::is_some)).unwrap_or(0) as u64;
        if self.rng.percent(30) {
            // Every copy goes.
            (0..3).for_each(|store| drop(self.emit(format!("remove {store} {name}"))));
        } else {
            let store = if self.rng.percent(75) { held } else { self.rng.below(3) };
            self.emit(format!("remove {store} {name}"));
        }
    }
}
