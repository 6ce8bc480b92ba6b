//! Answers, questions, plans and reloads.
use super::Gen;
use history::{Answer, Hash, Plan};

impl Gen {
    pub(super) fn answer(&mut self) {
        let rooms = &self.holding().rooms;
        let open: Vec<Hash> = rooms.iter().filter(|(_, room)| room.answer != Some(0)).map(|(hash, _)| *hash).collect();
        let all: Vec<Hash> = rooms.keys().copied().collect();
        let names = if open.is_empty() || self.rng.percent(30) { all } else { open };
        if !names.is_empty() {
            let name = self.rng.pick(&names);
            self.answer_for(name);
        }
    }

    /// An answer that keeps to the domain, and, unless the profile is late,
    /// comes in time.
    pub(super) fn answer_for(&mut self, name: Hash) {
        let held = self.holding().rooms.get(&name).and_then(|room| room.answer);
        let early = self.has_room(name) && !self.watched.domain.seen_by_sync(name);
        // A tree whose every index 0 is ineligible has little to say.
        let base = self.heads.get(&name).is_some_and(|block| block.index == 0);
        let ineligible = if base { self.p.ineligible / 6 } else { self.p.ineligible };
        let value = match self.watched.domain.final_answer(name) {
            Some(value) if held == Some(value) || self.rng.percent(80) => value,
            Some(_) => 1,
            None if (early || self.p.late) && self.rng.percent(ineligible) => 2,
            None if self.rng.percent(if self.p.late { 8 } else { 25 }) => 0,
            None => 1,
        };
        self.emit(format!("answer {name} {value}"));
    }

    /// A block comes back under another parent and is answered late, then its
    /// old parent comes or goes: that is not the block's concern any more.
    pub(super) fn moved(&mut self) {
        let Some(name) = self.known() else { return };
        let old = self.heads[&name].prev;
        let parent = self.known().filter(|parent| *parent != name && *parent != old);
        let parent = parent.filter(|parent| self.heads[parent].index < 1000);
        if self.watched.domain.final_answer(name).is_some() || parent.is_none() || !self.heads.contains_key(&old) {
            return;
        }
        (0..3).for_each(|store| drop(self.emit(format!("remove {store} {name}"))));
        self.sync();
        self.head(name, parent, false);
        self.write(name);
        self.sync();
        self.emit(format!("answer {name} 2"));
        let mut block = self.marked(old);
        block.marks.orphaned = self.holding().live().contains_key(&old);
        self.emit(format!("put 0 {block}"));
        self.sync();
        self.emit(format!("linked {name}"));
    }

    pub(super) fn ask(&mut self) {
        self.sync_mostly();
        let name = self.name();
        let asks = ["node", "parent", "linked", "clinked", "effective", "best", "cbest", "leaves", "ccount", "live"];
        let ask = self.rng.pick(&asks);
        let named = ["node", "parent", "linked", "clinked", "effective"].contains(&ask);
        self.emit(if named { format!("{ask} {name}") } else { ask.to_string() });
    }

    pub(super) fn ask_all(&mut self) {
        self.sync_mostly();
        let mut names: Vec<Hash> = self.heads.keys().copied().collect();
        while names.len() > 10 {
            names.remove(self.rng.below(names.len() as u64) as usize);
        }
        for ask in ["best", "cbest", "leaves", "ccount", "live", "count", "generation", "version"] {
            self.emit(ask);
        }
        for name in names {
            for ask in ["node", "parent", "linked", "clinked"] {
                self.emit(format!("{ask} {name}"));
            }
            if self.rng.percent(30) {
                self.emit(format!("effective {name}"));
            }
        }
    }

    pub(super) fn holdings(&mut self) {
        let (generation, version) = (self.holding().generation, self.holding().version);
        for _ in 0..1 + self.rng.below(3) {
            let back = version.saturating_sub(self.rng.below(12));
            let at = self.rng.pick(&[version, back, back, back, 0, version.saturating_add(1), u64::MAX]);
            let named = [generation, generation, generation, generation, generation.wrapping_add(1), 0];
            let named = self.rng.pick(&named);
            self.emit(format!("changes {named} {at}"));
        }
        if !self.p.tree && self.rng.percent(15) {
            self.ask_holdings();
        }
        let name = self.name();
        let line = self.rng.pick(&[format!("effective {name}"), "count".into(), "generation".into(), "version".into()]);
        self.emit(line);
    }

    /// Changes since every version of late and what every name holds.
    pub(super) fn ask_holdings(&mut self) {
        let (generation, version) = (self.holding().generation, self.holding().version);
        for back in 0..=self.holding().journal_room.min(12) + 1 {
            self.emit(format!("changes {generation} {}", version.saturating_sub(back)));
        }
        for name in self.heads.keys().copied().collect::<Vec<Hash>>() {
            self.emit(format!("effective {name}"));
        }
        for ask in ["count", "generation", "version"] {
            self.emit(ask);
        }
    }

    pub(super) fn plan_any(&mut self) {
        self.sync_mostly();
        let adopt = self.rng.percent(50);
        self.plan(adopt);
    }

    pub(super) fn plan(&mut self, adopt: bool) -> Answer {
        let (floor, n, clock) = (self.floor(), self.blocks_per_epoch(), self.clock());
        self.emit(format!("{} {floor} {n} {clock}", if adopt { "adopt" } else { "select" }))
    }

    fn blocks_per_epoch(&mut self) -> u64 {
        let low = self.rng.below(13);
        let ends = [0, 1, u64::MAX, u64::MAX / 2, u64::MAX / 2 + 1, 1 << 32, u64::MAX - 1];
        match self.rng.below(12) {
            _ if self.rng.percent(self.p.edges) => self.rng.pick(&ends),
            0..=5 => self.n,
            6..=9 => low,
            10 => 0,
            _ => self.rng.pick(&ends),
        }
    }

    fn floor(&mut self) -> String {
        let view = self.view();
        let local = view.canonical_best().map_or(3, |(hash, _)| view.live[&hash].index.min(1000));
        let ends = [0, local.saturating_sub(1), local, local + 1, u64::MAX, u64::MAX - 1];
        match self.rng.below(12) {
            _ if self.rng.percent(self.p.edges) => self.rng.pick(&ends).to_string(),
            0..=5 => "-".to_string(),
            6..=7 => self.rng.below(local + 2).to_string(),
            8..=10 => self.rng.below(local / 2 + 1).to_string(),
            _ => self.rng.pick(&ends).to_string(),
        }
    }

    /// As a node would: sync, plan, put the entries back, plan again.
    pub(super) fn cycle(&mut self) {
        for _ in 0..1 + self.rng.below(3) {
            self.sync_mostly();
            let adopt = self.rng.percent(50);
            let Answer::Plan(Plan::Apply { entries, .. }) = self.plan(adopt) else {
                break;
            };
            let cut = if self.rng.percent(10) { self.rng.below(4) as usize } else { usize::MAX };
            for entry in entries.into_iter().take(cut) {
                let mut block = self.heads[&entry.hash].clone();
                block.marks = entry.marks;
                self.emit(format!("put 0 {block}"));
            }
        }
    }

    pub(super) fn reload(&mut self) {
        let (generation, loaded) = (self.holding().generation, self.rng.below(8));
        let version = self.version();
        if generation == u64::MAX {
            return self.start();
        }
        let above = generation.saturating_add(1 + self.rng.below(3));
        let high = if self.rng.percent(2) { u64::MAX } else { above };
        self.emit(format!("reload {high} {version}"));
        for _ in 0..loaded {
            self.loads = true;
            match self.rng.below(6) {
                0 => self.answer(),
                1 => self.holdings(),
                2 => self.new_block(),
                3 if self.rng.percent(30) => self.remove(),
                _ => self.again(),
            }
        }
        self.loads = false;
    }

    pub(super) fn compare(&mut self) {
        for _ in 0..1 + self.rng.below(3) {
            let (a, b) = (self.amounts().1, self.amounts().1);
            let (a, b) = (self.respell(&a), self.respell(&b));
            if !self.p.tree || self.rng.percent(30) {
                self.emit(format!("amount \"{a}\""));
                continue;
            }
            let b = if self.rng.percent(50) { a.clone() } else { b };
            let mut side = |text: String| if self.rng.percent(18) { "?".to_string() } else { format!("\"{text}\"") };
            let (a, b) = (side(a), side(b));
            let (i, j) = (self.rng.below(3), self.rng.pick(&[0, 1, 2, u64::MAX]));
            let (l, r) = (self.name(), self.name());
            self.emit(format!("choose {a} {i} {l} {b} {j} {r}"));
        }
    }
}
