//! The two sides that a script is done on. Blocks are made words, or the
//! original's own, beforehand, so that neither is charged for the other's form.
use crate::script::{Script, Step};
use cadraspes::boundary::{self, EntryWords, Record};
use cadraspes::words::{copy_words, entry_of, shown_of};
use cadraspes::{room, Block, Hash, Plan, Terms};
use history::Timed;

/// What is asked of a side: a step, or what is compared and never timed.
#[derive(Clone, Copy)]
pub enum Call {
    Step(Step),
    /// What was held is let go.
    Forget,
    Tip,
    Plan {
        adopt: bool,
    },
    Listed,
}

#[derive(Debug, PartialEq)]
pub enum Told {
    /// The work of the best block, a plan's `changed`, how many leaves; else 0.
    Number(u128),
    Tip(Option<Hash>),
    Plan(Plan),
    Listed(Vec<Hash>),
}

pub type Side<'a> = Box<dyn FnMut(Call) -> Told + 'a>;

struct Library<'a> {
    script: &'a Script,
    hashes: u64,
    copies: Vec<[u64; 12]>,
    memory: Vec<u64>,
    generation: u64,
    entries: Vec<EntryWords>,
    leaves: Vec<u8>,
}

pub fn library(script: &Script) -> Side<'_> {
    let (hashes, copies) = (script.hashes(), script.blocks.iter().map(|block| copy_words(&block.marks)).collect());
    let memory = vec![0; room(hashes as u64, script.journal) as usize];
    let (entries, leaves) = (vec![[0; 16]; hashes], vec![0; 32 * hashes]);
    let mut library = Library { script, hashes: hashes as u64, copies, memory, generation: 1, entries, leaves };
    Box::new(move |call| match call {
        Call::Step(step) => Told::Number(library.step(step)),
        Call::Forget => Told::Number(0),
        Call::Tip => Told::Tip(library.tip()),
        Call::Plan { adopt } => Told::Plan(library.planned(adopt)),
        Call::Listed => Told::Listed(library.listed()),
    })
}

/// A call that is not refused.
fn done(number: u64) -> u128 {
    assert_eq!(number, 0, "no call is refused");
    0
}

impl Library<'_> {
    fn step(&mut self, step: Step) -> u128 {
        match step {
            Step::Start(count) => {
                self.generation = 1;
                done(boundary::start(&mut self.memory, self.hashes, self.script.journal, 1, 0));
                self.load(count)
            }
            Step::Reload(count) => {
                self.generation += 1;
                done(boundary::reload(&mut self.memory, self.generation, 0));
                self.load(count)
            }
            Step::Put(at) => done(boundary::put(&mut self.memory, 0, &record(self.script, &self.copies, at))),
            Step::Remove(at) => done(boundary::remove(&mut self.memory, 0, &self.script.blocks[at].hash.0)),
            Step::Sync => done(boundary::sync(&mut self.memory)),
            Step::Best => self.best(),
            Step::Leaves => self.leaves().into(),
            Step::Select => self.plan(false)[1].into(),
            Step::Adopt => self.plan(true)[1].into(),
        }
    }

    fn load(&mut self, count: usize) -> u128 {
        for at in 0..count {
            done(boundary::load(&mut self.memory, 0, &record(self.script, &self.copies, at)));
        }
        0
    }

    fn best(&self) -> u128 {
        let (mut block, mut value) = ([0; 29], [0; 3]);
        done(boundary::best(&self.memory, &mut block, &mut value));
        u128::from(value[2]) << 64 | u128::from(value[1])
    }

    fn tip(&self) -> Option<Hash> {
        let (mut block, mut value) = ([0; 29], [0; 3]);
        done(boundary::best(&self.memory, &mut block, &mut value));
        shown_of(&block).map(|block| block.hash)
    }

    fn leaves(&mut self) -> u64 {
        let mut out = [0; 2];
        done(boundary::leaves(&mut self.memory, &mut self.leaves, &mut out));
        out[1]
    }

    fn listed(&mut self) -> Vec<Hash> {
        let count = self.leaves() as usize;
        self.leaves.chunks_exact(32).take(count).map(|hash| Hash(hash.try_into().expect("32 bytes"))).collect()
    }

    fn plan(&mut self, adopt: bool) -> [u64; 3] {
        let (decide, mut out) = (if adopt { boundary::adopt } else { boundary::select }, [0; 3]);
        done(decide(&mut self.memory, &self.script.terms, &mut self.entries, &mut out));
        out
    }

    fn planned(&mut self, adopt: bool) -> Plan {
        let [apply, changed, count] = self.plan(adopt);
        let entries = self.entries[..count as usize].iter().map(entry_of).collect();
        if apply == 1 {
            Plan::Apply { changed, entries }
        } else {
            Plan::Scan
        }
    }
}

fn record<'a>(script: &'a Script, copies: &'a [[u64; 12]], at: usize) -> Record<'a> {
    let Block { hash, index, epoch, prev, target, actual, .. } = &script.blocks[at];
    let (target, actual) = (target.as_bytes(), actual.as_bytes());
    Record { hash: &hash.0, index: *index, epoch: *epoch, prev: &prev.0, target, actual, copy: &copies[at] }
}

/// The original: as it is where its own journal room is meant, else with
/// another.
pub fn original(script: &Script) -> Side<'_> {
    let timed = if script.journal == crate::script::JOURNAL { original::timed } else { original_journal::timed };
    let mut run = timed(script.journal, &script.blocks).expect("the original's sources are at hand");
    let terms = script.terms;
    Box::new(move |call| match call {
        Call::Step(step) => Told::Number(original_step(&mut *run, step, &terms)),
        Call::Forget => {
            run.forget();
            Told::Number(0)
        }
        Call::Tip => Told::Tip(run.best_hash()),
        Call::Plan { adopt } => Told::Plan(run.planned(adopt, &terms)),
        Call::Listed => Told::Listed(run.listed()),
    })
}

fn original_step(run: &mut dyn Timed, step: Step, terms: &Terms) -> u128 {
    match step {
        Step::Start(count) => run.start(count),
        Step::Reload(count) => run.reload(count),
        Step::Put(at) => run.put(at),
        Step::Remove(at) => run.remove(at),
        Step::Sync => run.sync(),
        Step::Best => return run.best(),
        Step::Leaves => return run.leaves() as u128,
        Step::Select => return run.plan(false, terms).into(),
        Step::Adopt => return run.plan(true, terms).into(),
    }
    0
}
