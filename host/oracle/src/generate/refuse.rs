//! Calls that are to be refused, with faults that may be several.
use super::{small_name, Gen};
use history::{Block, Hash};

impl Gen {
    pub(super) fn bad_start(&mut self) {
        let good = (1 + self.rng.below(9), 1 + self.rng.below(9));
        let (hashes, journal) =
            self.rng.pick(&[(0, good.1), (32_769, good.1), (good.0, 0), (good.0, 200_001), (u64::MAX, 0)]);
        self.emit(format!("start {hashes} {journal} 7 7"));
    }

    pub(super) fn refuse(&mut self) {
        let name = self.name();
        let (generation, version) = (self.holding().generation, self.holding().version);
        let bad_store = 3 + self.rng.below(253);
        match self.rng.below(15) {
            0 => self.bad_start(),
            1 => drop(self.emit(format!("remove {bad_store} {name}"))),
            2..=6 => self.bad_record(bad_store),
            7 => {
                let low = generation - self.rng.below(generation.saturating_add(1));
                self.emit(format!("reload {low} {version}"));
            }
            8 => {
                let (value, none) = (self.rng.pick(&[0, 1, 2, 3, 9]), 0x7000 + self.rng.below(9));
                self.emit(format!("answer {none:x} {value}"));
            }
            9 => drop(self.emit(format!("answer {name} {bad_store}"))),
            10 | 11 => self.other_final(),
            12 if self.p.tree && !self.holding().fresh => self.stale(name),
            _ => self.short_list(),
        }
    }

    /// A known block with one fault or several.
    fn bad_record(&mut self, bad_store: u64) {
        let Some(known) = self.known() else { return };
        let mut block = self.marked(known);
        let mut store = self.rng.below(3);
        let faults = if self.rng.percent(60) { 1 << self.rng.below(4) } else { self.rng.below(16) };
        if faults & 1 > 0 {
            store = bad_store;
        }
        if faults & 2 > 0 {
            block.index = u64::MAX;
        }
        if faults & 4 > 0 {
            self.other_header(&mut block);
        }
        if faults & 8 > 0 && self.holding().rooms.len() as u64 >= self.holding().hash_room {
            block.hash = small_name(0x5000 + self.rng.below(9));
        }
        let verb = if self.rng.percent(if self.holding().loading { 60 } else { 25 }) { "load" } else { "put" };
        self.emit(format!("{verb} {store} {block}"));
        if self.has_room(block.hash) && !self.heads.contains_key(&block.hash) {
            self.heads.insert(block.hash, block);
        }
    }

    /// Changes one of the header's fields, sometimes to the same value.
    fn other_header(&mut self, block: &mut Block<String>) {
        match self.rng.below(5) {
            0 => block.index = block.index.wrapping_add(1),
            1 => block.epoch = block.epoch.wrapping_add(1),
            2 => block.prev = small_name(self.rng.below(40)),
            3 => block.target = self.amounts().0,
            _ => block.actual = self.amounts().1,
        }
    }

    fn other_final(&mut self) {
        let rooms = self.holding().rooms.iter();
        let finals: Vec<(Hash, u8)> =
            rooms.filter_map(|(hash, room)| Some((*hash, room.answer.filter(|value| *value != 1)?))).collect();
        if !finals.is_empty() {
            let (name, held) = self.rng.pick(&finals);
            let value = self.rng.pick(&[1, 2 - held, held, 200]);
            self.emit(format!("answer {name} {value}"));
        }
    }

    fn stale(&mut self, name: Hash) {
        let asks = ["best", "cbest", "leaves", "ccount", "live", "select - 2 5", "adopt 1 2 -5"];
        let named = ["node", "parent", "linked", "clinked"].map(|ask| format!("{ask} {name}"));
        let line = if self.rng.percent(50) { self.rng.pick(&asks).to_string() } else { self.rng.pick(&named) };
        self.emit(line);
    }

    fn short_list(&mut self) {
        let lend = self.rng.below(5);
        self.emit(format!("lend {lend}"));
        for _ in 0..1 + self.rng.below(3) {
            match self.rng.below(4) {
                _ if !self.p.tree => self.holdings(),
                0 => drop(self.emit("leaves")),
                1 => self.holdings(),
                _ => drop(self.plan(lend.is_multiple_of(2))),
            }
        }
        if self.rng.percent(90) {
            self.emit("lend -");
        }
    }
}
