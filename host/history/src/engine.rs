//! What an engine is asked, and what it is told.
use crate::{Amount, Answer, Block, Call, Choice, Hash, Plan, Reason, Side, Terms, Work};

/// The questions, comparisons and plans of document 01, none of which changes
/// anything. Leaves come by rising hash.
pub trait Ask {
    fn effective(&self, hash: Hash) -> Option<Block<Amount>>;
    fn count(&self) -> u64;
    fn generation(&self) -> u64;
    fn version(&self) -> u64;
    fn changes(&self, generation: u64, version: u64) -> Option<Vec<Hash>>;

    fn node(&self, hash: Hash) -> Option<Block<Amount>>;
    fn parent(&self, hash: Hash) -> Option<Block<Amount>>;
    fn linked(&self, hash: Hash) -> Option<Work>;
    fn canonical_linked(&self, hash: Hash) -> Option<Work>;
    fn best(&self) -> Option<(Hash, Work)>;
    fn canonical_best(&self) -> Option<(Hash, Work)>;
    fn canonical_count(&self) -> u64;
    fn live_count(&self) -> u64;
    fn leaves(&self) -> Vec<Hash>;

    fn select(&self, terms: &Terms) -> Plan;
    fn adopt(&self, terms: &Terms) -> Plan;
    fn choose(&self, local: &Side<String>, remote: &Side<String>) -> (Choice, Reason);
    fn amount(&self, text: &str) -> Amount;
}

/// An engine that has no refusals of its own. Only calls that document 01
/// accepts are made on it; its versions start at 0.
pub trait Engine: Ask {
    fn reload(&mut self, generation: u64);
    fn load(&mut self, store: u8, block: &Block<String>);
    fn put(&mut self, store: u8, block: &Block<String>);
    fn remove(&mut self, store: u8, hash: Hash);
    /// `answer` gives the eligibility answer that a hash holds.
    fn sync(&mut self, answer: &dyn Fn(Hash) -> u8);
}

/// The answer to a question, comparison or plan; none if the call is another.
pub fn ask(who: &dyn Ask, call: &Call) -> Option<Answer> {
    let block = |block: Option<_>| block.map_or(Answer::None, Answer::Block);
    let work = |work: Option<_>| work.map_or(Answer::None, Answer::Work);
    let tip = |tip: Option<_>| tip.map_or(Answer::None, |(hash, work)| Answer::Tip(hash, work));
    Some(match call {
        Call::Node(hash) => block(who.node(*hash)),
        Call::Parent(hash) => block(who.parent(*hash)),
        Call::Effective(hash) => block(who.effective(*hash)),
        Call::Linked(hash) => work(who.linked(*hash)),
        Call::CanonicalLinked(hash) => work(who.canonical_linked(*hash)),
        Call::Best => tip(who.best()),
        Call::CanonicalBest => tip(who.canonical_best()),
        Call::CanonicalCount => Answer::Number(who.canonical_count()),
        Call::LiveCount => Answer::Number(who.live_count()),
        Call::Count => Answer::Number(who.count()),
        Call::Generation => Answer::Number(who.generation()),
        Call::Version => Answer::Number(who.version()),
        Call::Leaves => Answer::Hashes(who.leaves()),
        Call::Changes { generation, version } => {
            who.changes(*generation, *version).map_or(Answer::None, Answer::Hashes)
        }
        Call::Select(terms) => Answer::Plan(who.select(terms)),
        Call::Adopt(terms) => Answer::Plan(who.adopt(terms)),
        Call::Choose(local, remote) => {
            let (choice, reason) = who.choose(local, remote);
            Answer::Chosen(choice, reason)
        }
        Call::Amount(text) => Answer::Amount(who.amount(text)),
        _ => return None,
    })
}
