//! One history on a player, the original and the reading of document 01, call
//! by call, up to a first difference.
use crate::judge::{sweep_terms, Judge};
use history::{lines, read_line, Answer, Ask, Call, Hash, Line, Plan};
use std::collections::{BTreeMap, BTreeSet};

/// Whether a tip of this index and epoch covers, with so many blocks to an epoch.
pub type Covers = fn(u64, u64, u64) -> bool;

pub type Answers = Box<dyn FnMut(&Call) -> Answer>;

/// What is compared.
pub struct Player {
    pub call: Answers,
    /// No call of a history, so it stands apart.
    pub covers: Covers,
}

/// What was met on the way.
#[derive(Default)]
pub struct Tally {
    pub calls: u64,
    pub syncs: u64,
    /// Those of them that rebuilt, and those because the journal had run over.
    pub rebuilt: u64,
    pub overrun: u64,
    /// Plans answered with entries or none, and with a scan.
    pub applied: u64,
    pub scanned: u64,
    /// The most hashes that had an effective record at a sync.
    pub held: u64,
    /// How often each refusal was met, by its number.
    pub refused: BTreeMap<u8, u64>,
}

impl Tally {
    pub fn add(&mut self, other: Tally) {
        self.calls += other.calls;
        self.syncs += other.syncs;
        self.rebuilt += other.rebuilt;
        self.overrun += other.overrun;
        self.applied += other.applied;
        self.scanned += other.scanned;
        self.held = self.held.max(other.held);
        other.refused.into_iter().for_each(|(number, times)| *self.refused.entry(number).or_default() += times);
    }

    fn answered(&mut self, answer: &Answer) {
        self.calls += 1;
        match answer {
            Answer::Refused(number) => *self.refused.entry(*number).or_default() += 1,
            Answer::Plan(Plan::Apply { .. }) => self.applied += 1,
            Answer::Plan(Plan::Scan) => self.scanned += 1,
            _ => (),
        }
    }
}

/// How many hashes may be named for everything to be asked after every sync.
/// Beyond, it is asked after those that rebuild and every fourth, with two
/// plans, or a history of full size would take many minutes.
const FEW: usize = 1_000;

/// A history on all three.
pub struct Against {
    judge: Judge,
    player: Player,
    /// Every hash that was put or named as a previous hash.
    known: BTreeSet<Hash>,
    /// Generation and version of the last sync since the start.
    synced: Option<(u64, u64)>,
    pub tally: Tally,
    pub difference: Option<String>,
}

impl Against {
    /// With every question after syncs.
    pub fn run(history: &[u8], player: Player) -> Against {
        let (known, synced, tally) = Default::default();
        let mut against = Against { judge: Judge::of_original(), player, known, synced, tally, difference: None };
        for (text, line) in lines(history).zip(1..) {
            let Line::Call(call) = read_line(text) else { continue };
            against.judge.line = line;
            let answer = against.ask(&call);
            match call {
                Call::Load(_, block) | Call::Put(_, block) => against.known.extend([block.hash, block.prev]),
                Call::Start { .. } if answer == Answer::Done => against.synced = None,
                Call::Sync => against.synced(),
                _ => (),
            }
            if against.difference.is_some() || against.left() {
                break;
            }
        }
        against
    }

    /// The history left the domain of the comparison, where nothing is to be
    /// compared.
    pub fn left(&self) -> bool {
        self.judge.outside.is_some()
    }

    /// The last line that was run.
    pub fn line(&self) -> usize {
        self.judge.line
    }

    /// After a sync.
    fn synced(&mut self) {
        let Some(reading) = self.judge.watched.reading() else { return };
        let holding = &reading.holding;
        let now = (holding.generation, holding.version);
        let since = self.synced.replace(now).filter(|(generation, _)| *generation == now.0);
        let overrun = since.is_some_and(|(_, version)| now.1 - version > holding.journal_room);
        let rebuilt = since.is_none() || overrun;
        self.tally.overrun += u64::from(overrun);
        self.tally.rebuilt += u64::from(rebuilt);
        self.tally.held = self.tally.held.max(reading.count());
        self.tally.syncs += 1;
        if self.known.len() <= FEW || rebuilt || self.tally.syncs.is_multiple_of(4) {
            self.sweep();
        }
    }

    /// All questions, for every hash named so far, and between them a sweep of
    /// plans, which write words of the memory that no question may see.
    fn sweep(&mut self) {
        let mut terms = sweep_terms(self.judge.line as u64);
        if self.known.len() > FEW {
            terms.rotate_left(self.tally.syncs as usize % 8);
            terms.truncate(1);
        }
        for terms in terms {
            self.ask(&Call::Select(terms));
            self.ask(&Call::Adopt(terms));
        }
        let whole = [Call::Best, Call::CanonicalBest, Call::CanonicalCount, Call::LiveCount, Call::Leaves];
        let holdings = [Call::Count, Call::Generation, Call::Version];
        whole.iter().chain(&holdings).for_each(|call| drop(self.ask(call)));
        for hash in self.known.clone() {
            let each = [Call::Node, Call::Parent, Call::Linked, Call::CanonicalLinked, Call::Effective];
            each.iter().for_each(|question| drop(self.ask(&question(hash))));
        }
        self.covering();
    }

    /// Covering for every block held, with epochs of several lengths. (The
    /// original's own is private: it shows in its plans alone.)
    fn covering(&mut self) {
        let line = self.judge.line;
        let Some(reading) = self.judge.watched.reading() else { return };
        let blocks = self.known.iter().filter_map(|hash| reading.effective(*hash));
        let asked = blocks.flat_map(|block| [0, 1, 2, 10, line as u64 % 7, u64::MAX].map(|n| (block, n)));
        let wrong = asked.into_iter().find_map(|(block, n)| {
            let ours = (self.player.covers)(block.index, block.epoch, n);
            (ours != reading::covers(&block, n)).then_some((block.index, block.epoch, n, ours))
        });
        if let (None, Some((index, epoch, n, ours))) = (&self.difference, wrong) {
            let (ours, theirs) = (u8::from(ours), u8::from(!ours));
            let told = format!("#   the library: {ours}\n#   expected:    {theirs}\n");
            self.difference = Some(format!("# line {line}: covers {index} {epoch} {n}\n{told}"));
        }
    }

    /// The player's answer: the original and the reading must agree, and it
    /// with them.
    fn ask(&mut self, call: &Call) -> Answer {
        let answer = (self.player.call)(call);
        let expected = self.judge.call(call);
        let same = answer == expected || matches!((&answer, &expected), (Answer::NoCall(_), Answer::NoCall(_)));
        self.tally.answered(&answer);
        let line = self.judge.line;
        if self.difference.is_some() || self.left() {
            return answer;
        }
        if !self.judge.differences.is_empty() {
            self.difference = Some(format!("# line {line}: {call}: the original is not as read\n"));
        } else if !same {
            self.difference = Some(told(line, &call.to_string(), &answer.to_string(), &expected.to_string()));
        }
        answer
    }
}

/// A difference as remarks of a history.
pub fn told(line: usize, call: &str, ours: &str, theirs: &str) -> String {
    let [ours, theirs] = [ours, theirs].map(|answer| answer.replace('\n', "\n# "));
    format!("# line {line}: {call}\n#   the library: {ours}\n#   expected:    {theirs}\n")
}
