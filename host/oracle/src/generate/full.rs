//! Histories of full size: room for 32,768 hashes, all of it taken, and the
//! original's own journal of 200,000 entries, which runs over. Other profiles
//! look at all that is known for many a call, which would take too long here.
use super::Gen;
use history::{Block, Hash, Marks};

/// The profile of full size.
pub const FULL: &str = "full";

const HASHES: u64 = 32_768;
const JOURNAL: u64 = 200_000;

/// How often, in percent, a new block goes on the line, and if not so, on the
/// last fork: from one long line to many short forks. Leaves times height is
/// what Adopt costs the reading.
const SHAPES: [(u64, u64); 4] = [(97, 90), (30, 97), (8, 92), (3, 75)];

/// The line from index 0 that forks grow beside.
struct Line {
    names: Vec<Hash>,
    /// Its blocks below this index are canonical.
    canonical: u64,
    /// How often, in percent, another block is.
    gaps: u64,
}

impl Line {
    fn holds(&self, block: &Block<String>) -> bool {
        self.names.get(block.index as usize) == Some(&block.hash)
    }
}

impl Gen {
    /// Grows until there is no more room, overruns the journal between two
    /// syncs, and goes on.
    pub(super) fn full(&mut self) {
        self.pool.clear();
        self.n = self.rng.pick(&[20, 200, 2000]);
        let generation = self.rng.below(5);
        self.emit(format!("start {HASHES} {JOURNAL} {generation} 0"));
        let line = self.settle();
        self.grow(&line);
        self.run_over(&line);
        self.rounds(&line);
        if self.rng.percent(30) {
            self.loaded_again(&line);
        }
        self.closing_of_full();
    }

    /// Settles the headers of a few more blocks than there is room for.
    fn settle(&mut self) -> Line {
        let (on, fork_on) = self.rng.pick(&SHAPES);
        let mut names: Vec<Hash> = Vec::new();
        let (mut fork, count) = (None, HASHES + 100 + self.rng.below(900));
        let missing = if self.rng.percent(30) { self.rng.below(HASHES * on / 100) } else { u64::MAX };
        for at in 0..count {
            let name = self.full_name(at);
            let top = names.len();
            let on_line = top == 0 || self.rng.percent(on);
            let parent = match fork {
                _ if on_line => names.last().copied(),
                Some(fork) if self.rng.percent(fork_on) => Some(fork),
                _ => Some(names[top - 1 - self.rng.below(top.min(1500) as u64) as usize]),
            };
            self.full_head(name, parent, on_line, top as u64 == missing);
            match on_line {
                true => names.push(name),
                false => fork = Some(name),
            }
            self.pool.push(name);
        }
        let canonical = names.len() as u64 * self.rng.pick(&[100, 100, 99, 60]) / 100;
        Line { names, canonical, gaps: self.rng.pick(&[0, 0, 2]) }
    }

    /// Short names, some long ones, and some whose last eight bytes are alike.
    fn full_name(&mut self, at: u64) -> Hash {
        let (high, low) = (self.rng.below(1 << 28), self.rng.below(64));
        let word = match self.rng.below(20) {
            0 | 1 => format!("{high:032x}{at:032x}"),
            2 => format!("{:x}{low:016x}", 1 + at),
            _ => format!("{high:x}{at:05x}"),
        };
        Hash::read(&word).expect("hex digits")
    }

    fn full_head(&mut self, name: Hash, parent: Option<Hash>, on_line: bool, misses: bool) {
        let mut index = parent.map_or(0, |parent| self.heads[&parent].index.saturating_add(1).min(u64::MAX - 1));
        let mut prev = parent.unwrap_or(Hash([0; 32]));
        let amount = 1 + self.rng.below(if on_line { 50 } else { 70 });
        let missed = misses || (!on_line && self.rng.percent(4));
        let target = if missed { amount + 1 } else { 1 + self.rng.below(amount) }.to_string();
        let mut actual = amount.to_string();
        match self.rng.below(500) {
            _ if on_line => (),
            0 => prev = name,
            1 => index = self.rng.below(40),
            2 => actual = "x".to_string(),
            3 => actual = u128::MAX.to_string(),
            4 => prev = self.name(),
            _ => (),
        }
        let later = if self.rng.percent(2) { 1 + self.rng.below(3) } else { 0 };
        let epoch = index / self.n + later;
        self.heads.insert(name, Block { hash: name, index, epoch, prev, target, actual, marks: Marks::default() });
    }

    /// Puts or loads a name with marks of its own: those of the line are never
    /// orphaned.
    fn full_write(&mut self, name: Hash, line: &Line) {
        let has_room = self.has_room(name);
        let mut block = self.heads[&name].clone();
        let on_line = line.holds(&block);
        if !has_room && !on_line && self.rng.percent(10) {
            // Its room is gone or not there yet, so the header may be another.
            block.epoch += 1;
            self.heads.insert(name, block.clone());
        }
        let canonical = if on_line { block.index < line.canonical } else { self.rng.percent(line.gaps) };
        let orphaned = !on_line && self.rng.percent(4);
        let often = if orphaned { 70 } else { 3 };
        let time = self.rng.percent(often).then(|| self.clock());
        let reason = self.rng.percent(often).then(|| self.reason());
        let other = self.rng.percent(often).then(|| self.name());
        block.marks = Marks { orphaned, canonical, time, reason, other };
        let store = self.rng.pick(&[0, 0, 0, 1, 2]);
        let verb = if self.loads && self.holding().loading { "load" } else { "put" };
        self.emit(format!("{verb} {store} {block}"));
    }

    fn full_answer(&mut self, name: Hash, line: &Line) {
        if line.holds(&self.heads[&name]) {
            let value = self.rng.below(2);
            self.emit(format!("answer {name} {value}"));
        } else {
            self.answer_for(name);
        }
    }

    /// All blocks arrive, more or less out of order, the first of them loaded.
    fn grow(&mut self, line: &Line) {
        let mut order = self.pool.clone();
        let window = self.rng.pick(&[1, 40, 3000]);
        for at in 0..order.len() {
            let other = at + self.rng.below(window) as usize;
            order.swap(at, other.min(self.pool.len() - 1));
        }
        let loaded = 8_000 + self.rng.below(22_000) as usize;
        self.loads = true;
        for (at, name) in order.into_iter().enumerate() {
            if at == loaded || (at > loaded && self.rng.below(4000) == 0) {
                self.loads = false;
                self.sync();
            }
            self.full_write(name, line);
            if self.rng.percent(8) {
                self.full_answer(name, line);
            }
            // Not while loading is open: a put meant to be refused may be taken, and close it.
            if !self.loads && self.rng.below(600) == 0 {
                self.refuse();
            }
        }
        self.sync();
    }

    fn full_act(&mut self, name: Hash, line: &Line) {
        match self.rng.below(100) {
            0..=15 => {
                let store = self.rng.below(3);
                self.emit(format!("remove {store} {name}"));
            }
            16 | 17 => (0..3).for_each(|store| drop(self.emit(format!("remove {store} {name}")))),
            18..=21 => self.full_answer(name, line),
            22 => drop(self.emit(format!("effective {name}"))),
            23 if self.rng.percent(2) => self.refuse(),
            _ => self.full_write(name, line),
        }
    }

    /// More touches than the journal has entries, with no sync among them.
    fn run_over(&mut self, line: &Line) {
        let (generation, from) = (self.holding().generation, self.holding().version);
        let end = from + JOURNAL + 2 + self.rng.below(3000);
        while self.holding().version < end {
            let near = (JOURNAL - 8..=JOURNAL + 1).contains(&(self.holding().version - from));
            let name = self.rng.pick(&self.pool);
            match near {
                true => self.full_write(name, line),
                false => self.full_act(name, line),
            }
            if (JOURNAL - 1..=JOURNAL + 1).contains(&(self.holding().version - from)) {
                self.emit(format!("changes {generation} {from}"));
                self.emit(format!("changes {generation} {}", from + 1));
            }
        }
        self.mend(line);
        self.sync();
    }

    /// Puts those of the line that are gone.
    fn mend(&mut self, line: &Line) {
        for name in &line.names {
            if self.holding().effective(*name).is_none() {
                self.full_write(*name, line);
            }
        }
    }

    /// Syncs of a few blocks and of many, on a journal that has run over.
    fn rounds(&mut self, line: &Line) {
        for round in 0..8 {
            for _ in 0..self.rng.pick(&[1, 30, 300, 1500]) {
                let name = self.rng.pick(&self.pool);
                let block = &self.heads[&name];
                let low = line.holds(block) && block.index + 100 < line.names.len() as u64;
                match low {
                    true => self.full_write(name, line),
                    false => self.full_act(name, line),
                }
            }
            if self.rng.percent(70) {
                self.mend(line);
            }
            self.sync();
            match round % 4 {
                1 => self.cycle(),
                3 => drop(self.plan(self.lines % 2 == 0)),
                _ => ["best", "cbest", "ccount", "leaves"].iter().for_each(|ask| drop(self.emit(*ask))),
            }
        }
    }

    /// A reload, and half of the blocks loaded.
    fn loaded_again(&mut self, line: &Line) {
        self.reload();
        self.loads = true;
        for name in self.pool.clone() {
            if self.rng.percent(50) {
                self.full_write(name, line);
            }
        }
        self.loads = false;
        self.sync();
    }

    /// What a select leaves is put, so that the canonical blocks are a line,
    /// and planned again.
    fn closing_of_full(&mut self) {
        self.cycle();
        self.sync();
        self.plan(false);
        self.plan(true);
    }
}
