//! Whole histories on the library: its own refusals and answers.
use crate::boundary::promised;
use crate::{choose, room, Amount, Block, Entry, Hash, Marks, Plan, Reason, Refusal, Side, Tree, Work};
use history::{read_line, Answer, Call, Line};

/// A history played so far.
#[derive(Default)]
pub struct Replay {
    tree: Option<Tree>,
    /// The length of the list lent; none is as long as could be needed.
    lend: Option<u64>,
}

/// What a memory holds before its start: a start asks nothing of it.
const BEFORE: u64 = 0xa5a5_5a5a_dead_beef;

impl Replay {
    /// The tree, once a start was accepted.
    pub fn tree(&mut self) -> Option<&mut Tree> {
        self.tree.as_mut()
    }

    /// The answer to a line, given without its end; none if it is passed over.
    pub fn line(&mut self, line: &[u8]) -> Option<Answer> {
        match read_line(line) {
            Line::Passed => None,
            Line::NoCall(why) => Some(Answer::NoCall(why)),
            Line::Call(call) => Some(self.call(&call)),
        }
    }

    /// The library's answer.
    pub fn call(&mut self, call: &Call) -> Answer {
        match (&mut self.tree, call) {
            (Some(tree), _) => refused(play(tree, &mut self.lend, call)),
            (None, Call::Start { hashes, journal, generation, version }) => {
                let started = started(*hashes, *journal, *generation, *version);
                refused(started.map(|tree| {
                    self.tree = Some(tree);
                    Answer::Done
                }))
            }
            (None, _) => Answer::NoCall("no start was accepted yet".to_string()),
        }
    }
}

fn started(hashes: u64, journal: u64, generation: u64, version: u64) -> Result<Tree, Refusal> {
    let words = if hashes <= 32_768 && journal <= 200_000 { room(hashes, journal) } else { 64 };
    Tree::in_memory(vec![BEFORE; words as usize], hashes, journal, generation, version)
}

fn play(tree: &mut Tree, lend: &mut Option<u64>, call: &Call) -> Result<Answer, Refusal> {
    match call {
        Call::Start { hashes, journal, generation, version } => {
            *tree = started(*hashes, *journal, *generation, *version)?;
            *lend = None;
        }
        Call::Reload { generation, version } => tree.reload(*generation, *version)?,
        Call::Load(store, block) => tree.load(*store, block)?,
        Call::Put(store, block) => tree.put(*store, block)?,
        Call::Remove(store, hash) => tree.remove(*store, *hash)?,
        Call::Answer(hash, value) => tree.answer(*hash, *value)?,
        Call::Sync => tree.sync(),
        Call::Lend(length) => *lend = *length,
        Call::Effective(hash) => return Ok(block(tree.effective(*hash))),
        Call::Count => return Ok(Answer::Number(tree.count())),
        Call::Generation => return Ok(Answer::Number(tree.generation())),
        Call::Version => return Ok(Answer::Number(tree.version())),
        Call::Changes { generation, version } => return changes(tree, *generation, *version, *lend),
        Call::Node(hash) => return tree.node(*hash).map(block),
        Call::Parent(hash) => return tree.parent(*hash).map(block),
        Call::Linked(hash) => return tree.linked(*hash).map(work),
        Call::CanonicalLinked(hash) => return tree.canonical_linked(*hash).map(work),
        Call::Best => return tree.best().map(tip),
        Call::CanonicalBest => return tree.canonical_best().map(tip),
        Call::CanonicalCount => return tree.canonical_count().map(Answer::Number),
        Call::LiveCount => return tree.live_count().map(Answer::Number),
        Call::Leaves => return leaves(tree, *lend),
        Call::Select(terms) => return plan(tree, *lend, |tree, list| tree.select_into(terms, list)),
        Call::Adopt(terms) => return plan(tree, *lend, |tree, list| tree.adopt_into(terms, list)),
        Call::Choose(local, remote) => return Ok(chosen(local, remote)),
        Call::Amount(text) => return Ok(Answer::Amount(Tree::amount(text))),
    }
    Ok(Answer::Done)
}

fn refused(answer: Result<Answer, Refusal>) -> Answer {
    answer.unwrap_or_else(|refusal| Answer::Refused(refusal.number()))
}

fn block(block: Option<Block<Amount>>) -> Answer {
    block.map_or(Answer::None, Answer::Block)
}

fn work(work: Option<Work>) -> Answer {
    work.map_or(Answer::None, Answer::Work)
}

fn tip(tip: Option<(Block<Amount>, Work)>) -> Answer {
    tip.map_or(Answer::None, |(block, work)| Answer::Tip(block.hash, work))
}

/// A text that is unreadable counts as unknown work.
fn chosen(local: &Side<String>, remote: &Side<String>) -> Answer {
    let read = |side: &Side<String>| Side {
        work: side.work.as_deref().and_then(Tree::amount),
        index: side.index,
        hash: side.hash,
    };
    let (choice, reason) = choose(&read(local), &read(remote));
    Answer::Chosen(choice, reason)
}

fn changes(tree: &Tree, generation: u64, version: u64, lend: Option<u64>) -> Result<Answer, Refusal> {
    let touches = tree.version().saturating_sub(version).min(200_000);
    let ask = |list: &mut [Hash]| tree.changes_into(generation, version, list);
    let (count, list) = with_list(lend, touches, UNTOUCHED, ask, |count| count.unwrap_or(0))?;
    Ok(count.map_or(Answer::None, |_| Answer::Hashes(list)))
}

fn leaves(tree: &mut Tree, lend: Option<u64>) -> Result<Answer, Refusal> {
    let held = tree.count();
    let (_, list) = with_list(lend, held, UNTOUCHED, |list| tree.leaves_into(list), |count| *count)?;
    Ok(Answer::Hashes(list))
}

type Applied = Option<(u64, usize)>;

fn plan(
    tree: &mut Tree,
    lend: Option<u64>,
    ask: impl FnOnce(&mut Tree, &mut [Entry]) -> Result<Applied, Refusal>,
) -> Result<Answer, Refusal> {
    let held = tree.count();
    let reason = Some(Reason::PeerTip(0xc3, 0xc3));
    let marks = Marks { orphaned: true, canonical: true, time: Some(0xc3), reason, other: Some(UNTOUCHED) };
    let place = Entry { hash: UNTOUCHED, marks };
    let filled = |applied: &Applied| applied.map_or(0, |(_, count)| count);
    let (applied, entries) = with_list(lend, held, place, |list| ask(tree, list), filled)?;
    Ok(Answer::Plan(applied.map_or(Plan::Scan, |(changed, _)| Plan::Apply { changed, entries })))
}

/// A hash in a list before it is lent.
const UNTOUCHED: Hash = Hash([0xc3; 32]);

/// What is answered with a list of the length lent, and no longer than could be
/// needed and one place more; and the places filled. All others must stay as
/// they were, and all of them where the call is refused.
fn with_list<T: Copy + PartialEq, A>(
    lend: Option<u64>,
    needed: u64,
    untouched: T,
    ask: impl FnOnce(&mut [T]) -> Result<A, Refusal>,
    filled: impl FnOnce(&A) -> usize,
) -> Result<(A, Vec<T>), Refusal> {
    let length = lend.unwrap_or(u64::MAX).min(needed + 1);
    let mut list = vec![untouched; length as usize];
    let answer = ask(&mut list);
    let filled = answer.as_ref().map_or(0, filled);
    promised(list.iter().skip(filled).all(|place| *place == untouched).then_some(()));
    list.truncate(filled);
    Ok((answer?, list))
}
