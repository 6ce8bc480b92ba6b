//! Random histories. Everything follows from the seed and the profile. Each
//! line is read as it is written, by the reading of document 01 alone, so the
//! writer knows what is held, keeps to the domain of the comparison, and can
//! put a plan's entries back.
mod acts;
mod blocks;
mod full;
mod profile;
mod refuse;
mod rng;

use crate::domain::Watched;
use history::{Answer, Block, Call, Hash};
use profile::{Profile, ACTS};
use reading::{Holding, View};
use rng::Rng;
use std::collections::BTreeMap;

pub use full::FULL;
pub use profile::{HOLDINGS, PROFILES};

struct Gen {
    rng: Rng,
    p: Profile,
    watched: Watched,
    out: String,
    lines: usize,
    /// Blocks per epoch of the network, and its pool of names.
    n: u64,
    pool: Vec<Hash>,
    /// The header each name goes by, whether or not it is held.
    heads: BTreeMap<Hash, Block<String>>,
    /// Blocks are loaded, not put, as long as loading is open.
    loads: bool,
    /// Added to the work of new blocks.
    heavy: u64,
}

/// The history of a seed and a profile; none if there is no such profile.
pub fn generate(seed: u64, name: &str) -> Option<String> {
    let mut rng = Rng::new(seed, name);
    let p = profile::profile(name, &mut rng)?;
    let mut pool: Vec<Hash> = (0..p.pool).map(small_name).collect();
    if (name == "mixed" || name == HOLDINGS) && rng.percent(30) {
        pool.extend(far_names());
    }
    let n = 1 + rng.below(4);
    let limit = (p.calls / 6 + rng.below(p.calls - p.calls / 6)) as usize;
    let (watched, heads) = Default::default();
    let out = format!("# oracle gen {seed} {name}\n");
    let mut gen = Gen { rng, p, watched, out, lines: 0, n, pool, heads, loads: true, heavy: 0 };
    if name == FULL {
        gen.full();
        return Some(gen.out);
    }
    gen.start();
    gen.opening();
    while gen.lines < limit {
        gen.act();
    }
    gen.closing();
    Some(gen.out)
}

/// A history that overruns the untouched journal of 200,000 entries.
pub fn overrun() -> String {
    let mut out = "# oracle gen 0 overrun\nstart 16 200000 1 0\nput 0 a 0 0 0 \"1\" \"1\" c - - -\nsync\n".to_string();
    let block = |at: u64| format!("put {} {:x} 1 0 a \"1\" \"{}\" - - - -\n", at % 3, 1 + at % 7, 1 + at % 7);
    for at in 0..200_003 {
        out += &block(at);
        if at == 5 || at >= 199_998 {
            out += "version\nchanges 1 0\nchanges 1 1\nchanges 1 2\nchanges 1 3\nchanges 1 4\n";
        }
    }
    out + "sync\nbest\nleaves\nremove 0 3\nremove 1 3\nremove 2 3\nsync\nleaves\nlinked 3\n"
}

fn small_name(number: u64) -> Hash {
    Hash::read(&format!("{number:x}")).expect("at most 16 hex digits")
}

/// Names that differ only in their first, middle or last bytes.
fn far_names() -> [Hash; 4] {
    let long = |lead: &str, tail: &str| format!("{lead}{:0>1$}", tail, 64 - lead.len());
    [long("f", "1"), long("f", "2"), long("e00000000000000f", "2"), "f".repeat(64)]
        .map(|word| Hash::read(&word).expect("64 hex digits"))
}

impl Gen {
    fn holding(&self) -> &Holding {
        &self.watched.reading().expect("started").holding
    }

    fn view(&self) -> &View {
        &self.watched.reading().expect("started").view
    }

    fn emit(&mut self, line: impl Into<String>) -> Answer {
        let line = line.into();
        self.out += &line;
        self.out += "\n";
        self.lines += 1;
        let call = Call::read(&line).unwrap_or_else(|why| panic!("{line}: {why}"));
        self.watched.call(&call)
    }

    fn start(&mut self) {
        let journal = if self.p.journal == 0 { 200_000 } else { 1 + self.rng.below(self.p.journal) };
        let hashes = if self.p.hashes > 12 { self.p.hashes } else { 1 + self.rng.below(self.p.hashes) };
        let (generation, version) = (self.generation(), self.version());
        if self.rng.percent(3) {
            self.bad_start();
        }
        self.emit(format!("start {hashes} {journal} {generation} {version}"));
        self.loads = true;
    }

    fn generation(&mut self) -> u64 {
        let low = self.rng.below(5);
        if self.rng.percent(self.p.edges / 4) {
            return self.rng.pick(&[0, u64::MAX, u64::MAX - 2]);
        }
        low
    }

    fn version(&mut self) -> u64 {
        if !self.rng.percent(self.p.versions) {
            return 0;
        }
        let low = self.rng.below(12);
        self.rng.pick(&[low, u64::MAX - low, u64::MAX - low])
    }

    /// The first blocks, loaded in part, then synced.
    fn opening(&mut self) {
        let first = if self.p.first > 12 { 4 + self.rng.below(self.p.first) } else { self.rng.below(self.p.first + 1) };
        let loaded = self.rng.below(first + 1);
        let (canonical, line) = (self.p.canonical, self.p.pool == 0);
        for at in 0..first {
            self.loads = at < loaded;
            if line {
                // A canonical line from index 0 up; forks come later.
                self.p.canonical = 100;
                let parent = self.heads.values().max_by_key(|block| block.index).map(|block| block.hash);
                let name = self.branch_name(parent);
                self.head(name, parent, false);
                self.write(name);
            } else {
                self.new_block();
            }
        }
        self.p.canonical = canonical;
        self.loads = false;
        self.sync();
    }

    fn act(&mut self) {
        use profile::Act::*;
        let mut roll = self.rng.below(self.p.weights.iter().sum());
        let mut act = New;
        for (candidate, weight) in ACTS.iter().zip(self.p.weights) {
            act = *candidate;
            if roll < weight {
                break;
            }
            roll -= weight;
        }
        let used_up = self.holding().version == u64::MAX && self.rng.percent(25);
        match act {
            _ if used_up => self.reload(),
            New if self.p.ties > 80 && self.p.pool == 0 && self.rng.percent(6) => self.twins(),
            New if self.p.pool == 0 && self.rng.percent(30) => self.burst(),
            New => (0..1 + self.rng.below(3)).for_each(|_| self.new_block()),
            Again => self.again(),
            Remove => self.remove(),
            Answer if self.p.late && self.rng.percent(8) => self.moved(),
            Answer => self.answer(),
            Sync => self.sync(),
            Ask => (0..1 + self.rng.below(4)).for_each(|_| self.ask()),
            AskAll => self.ask_all(),
            Plan => self.plan_any(),
            Cycle => self.cycle(),
            Reload => self.reload(),
            Holdings => self.holdings(),
            Compare => self.compare(),
            Refuse => self.refuse(),
        }
    }

    fn closing(&mut self) {
        if !self.p.tree {
            return self.ask_holdings();
        }
        self.sync();
        self.ask_all();
        self.plan(true);
        self.plan(false);
    }

    /// One of the names that a header is settled for: the pool, where that is
    /// of full size.
    fn known(&mut self) -> Option<Hash> {
        if self.pool.len() > 1000 {
            return Some(self.rng.pick(&self.pool));
        }
        let names: Vec<Hash> = self.heads.keys().copied().collect();
        (!names.is_empty()).then(|| self.rng.pick(&names))
    }

    /// A known name, sometimes any other.
    fn name(&mut self) -> Hash {
        let other = small_name(self.rng.below(40));
        if self.rng.percent(6) {
            other
        } else {
            self.known().unwrap_or(other)
        }
    }

    /// Gives again what the domain asks for, then syncs.
    fn sync(&mut self) {
        if !self.p.tree {
            return;
        }
        while let Some((hash, value)) = self.watched.domain.lost(self.holding()) {
            self.emit(format!("answer {hash} {value}"));
        }
        self.emit("sync");
    }

    fn sync_mostly(&mut self) {
        if !self.holding().fresh && !self.rng.percent(4) {
            self.sync();
        }
    }
}
