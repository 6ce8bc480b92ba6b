//! Whole histories on the reading: document 01's calls, refused or answered.
use crate::{adopt, choose, read_amount, select, Done, Holding, Record, Refusal, View};
use history::{ask, lines, read_line, Amount, Answer, Ask, Call, Choice, Hash, Line, Plan, Reason, Side, Terms, Work};

/// The holdings, the tree as the last sync left it, and the lent list.
pub struct Reading {
    pub holding: Holding,
    pub view: View,
    /// Generation and version at the last sync.
    synced: Option<(u64, u64)>,
    /// The length of the list lent; none is as long as could be needed.
    pub lend: Option<u64>,
}

impl Reading {
    pub fn start(hash_room: u64, journal_room: u64, generation: u64, version: u64) -> Done<Reading> {
        let holding = Holding::start(hash_room, journal_room, generation, version)?;
        Ok(Reading { holding, view: View::default(), synced: None, lend: None })
    }

    /// A call other than start.
    pub fn call(&mut self, call: &Call) -> Done<Answer> {
        match call {
            Call::Reload { generation, version } => self.holding.reload(*generation, *version)?,
            Call::Load(store, block) => self.holding.load(*store, block)?,
            Call::Put(store, block) => self.holding.put(*store, block)?,
            Call::Remove(store, hash) => self.holding.remove(*store, *hash)?,
            Call::Answer(hash, value) => self.holding.answer(*hash, *value)?,
            Call::Sync => self.sync(),
            Call::Lend(length) => self.lend = *length,
            _ => return self.question(call),
        }
        Ok(Answer::Done)
    }

    /// Questions and plans: 12, then 13. Those that ask the holdings never
    /// meet 12; comparisons and amounts are never refused.
    fn question(&self, call: &Call) -> Done<Answer> {
        if asks_the_tree(call) && !self.holding.fresh {
            return Err(Refusal::Stale);
        }
        let answer = ask(self, call).unwrap_or(Answer::Done);
        let needed = match call {
            Call::Select(_) | Call::Adopt(_) => self.live_count(),
            _ => answer.length(),
        };
        if self.lend.is_some_and(|length| length < needed) {
            return Err(Refusal::List);
        }
        Ok(answer)
    }

    /// True when the next sync rebuilds.
    pub fn rebuilds(&self) -> bool {
        self.changed().is_none()
    }

    fn changed(&self) -> Option<Vec<Hash>> {
        self.synced.and_then(|(generation, version)| self.holding.changes_since(generation, version))
    }

    fn sync(&mut self) {
        let live = self.holding.live();
        let changed = self.changed();
        let ineligible = |hash: Hash| self.holding.answer_of(hash) == 2;
        match changed {
            None => self.view = View::from_scratch(live, &ineligible),
            Some(changed) => self.view.work_out_anew(live, &changed, &ineligible),
        }
        self.synced = Some((self.holding.generation, self.holding.version));
        self.holding.synced();
    }

    /// The tree that the holdings make, worked out from scratch.
    pub fn from_scratch(&self) -> View {
        View::from_scratch(self.holding.live(), &|hash| self.holding.answer_of(hash) == 2)
    }
}

/// Tree questions and plans.
fn asks_the_tree(call: &Call) -> bool {
    !matches!(
        call,
        Call::Effective(_)
            | Call::Count
            | Call::Generation
            | Call::Version
            | Call::Changes { .. }
            | Call::Choose(..)
            | Call::Amount(_)
    )
}

impl Ask for Reading {
    fn effective(&self, hash: Hash) -> Option<Record> {
        self.holding.effective(hash)
    }
    fn count(&self) -> u64 {
        self.holding.effective_count()
    }
    fn generation(&self) -> u64 {
        self.holding.generation
    }
    fn version(&self) -> u64 {
        self.holding.version
    }
    fn changes(&self, generation: u64, version: u64) -> Option<Vec<Hash>> {
        self.holding.changes_since(generation, version)
    }
    fn node(&self, hash: Hash) -> Option<Record> {
        self.view.live.get(&hash).copied()
    }
    fn parent(&self, hash: Hash) -> Option<Record> {
        self.view.parent(self.view.live.get(&hash)?).copied()
    }
    fn linked(&self, hash: Hash) -> Option<Work> {
        self.view.linked.get(&hash).copied()
    }
    fn canonical_linked(&self, hash: Hash) -> Option<Work> {
        self.view.canonical_linked.get(&hash).copied()
    }
    fn best(&self) -> Option<(Hash, Work)> {
        self.view.best()
    }
    fn canonical_best(&self) -> Option<(Hash, Work)> {
        self.view.canonical_best()
    }
    fn canonical_count(&self) -> u64 {
        self.view.canonical_count()
    }
    fn live_count(&self) -> u64 {
        self.view.live.len() as u64
    }
    fn leaves(&self) -> Vec<Hash> {
        self.view.leaves()
    }
    fn select(&self, terms: &Terms) -> Plan {
        select(&self.view, terms, &mut |_| {})
    }
    fn adopt(&self, terms: &Terms) -> Plan {
        adopt(&self.view, terms, &mut |_| {})
    }
    fn choose(&self, local: &Side<String>, remote: &Side<String>) -> (Choice, Reason) {
        let read = |side: &Side<String>| {
            let work = side.work.as_ref().and_then(|text| read_amount(text));
            Side { work, index: side.index, hash: side.hash }
        };
        choose(&read(local), &read(remote))
    }
    fn amount(&self, text: &str) -> Amount {
        read_amount(text)
    }
}

/// A history read so far.
#[derive(Default)]
pub struct Replay(pub Option<Reading>);

impl Replay {
    pub fn call(&mut self, call: &Call) -> Answer {
        let done = match (call, &mut self.0) {
            (Call::Start { hashes, journal, generation, version }, now) => {
                Reading::start(*hashes, *journal, *generation, *version).map(|reading| {
                    *now = Some(reading);
                    Answer::Done
                })
            }
            (_, None) => return Answer::NoCall("no start was accepted yet".to_string()),
            (_, Some(reading)) => reading.call(call),
        };
        done.unwrap_or_else(|refusal| Answer::Refused(refusal.number()))
    }

    /// The answer to one line; none if the line is passed over.
    pub fn line(&mut self, line: &[u8]) -> Option<Answer> {
        match read_line(line) {
            Line::Passed => None,
            Line::Call(call) => Some(self.call(&call)),
            Line::NoCall(why) => Some(Answer::NoCall(why)),
        }
    }
}

/// The answers to a whole history.
pub fn replay(history: &[u8]) -> String {
    let mut replay = Replay::default();
    lines(history).filter_map(|line| replay.line(line)).map(|answer| format!("{answer}\n")).collect()
}
