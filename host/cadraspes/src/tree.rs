//! A tree that owns its memory.
use crate::boundary::{self, done, never, promised, EntryWords, PlannedWords, Record, ShownWords, ValueWords};
use crate::words::{copy_words, entry_of, entry_words, reading_of, shown_of, value_of};
use crate::{Amount, Block, Entry, Hash, Plan, Refusal, Terms, Work};

/// How many words of memory some rooms need (docs/MEMORY.md); rooms that no
/// start takes may need as many as there are numbers.
pub fn room(hashes: u64, journal: u64) -> u64 {
    hashes.saturating_mul(81).saturating_add(journal.saturating_mul(8)).saturating_add(64)
}

/// A tree of blocks with its journal.
pub struct Tree {
    memory: Vec<u64>,
}

impl Tree {
    /// An empty tree with room for so many hashes, 1 to 32,768, and journal
    /// entries, 1 to 200,000. Refused: 1 ROOM.
    pub fn new(hashes: u64, journal: u64, generation: u64, version: u64) -> Result<Tree, Refusal> {
        let words = if hashes <= 32_768 && journal <= 200_000 { room(hashes, journal) } else { 0 };
        Tree::in_memory(vec![0; words as usize], hashes, journal, generation, version)
    }

    /// The same in memory that is given, whatever its words: [`room`] of them or
    /// more. Refused: 1 ROOM.
    pub fn in_memory(
        mut memory: Vec<u64>,
        hashes: u64,
        journal: u64,
        generation: u64,
        version: u64,
    ) -> Result<Tree, Refusal> {
        done(boundary::start(&mut memory, hashes, journal, generation, version))?;
        Ok(Tree { memory })
    }

    /// Empties the tree, under a later generation, and opens loading. Refused:
    /// 8 GENERATION.
    pub fn reload(&mut self, generation: u64, version: u64) -> Result<(), Refusal> {
        done(boundary::reload(&mut self.memory, generation, version))
    }

    /// Brings a record into a store as a put does, without a touch; taken until
    /// the first put, effective removal or sync. Refused: 7 LOADED, 2 KIND,
    /// 3 INDEX, 4 HEADER, 5 FULL.
    pub fn load(&mut self, store: u8, block: &Block<String>) -> Result<(), Refusal> {
        done(with_record(block, |record| boundary::load(&mut self.memory, store.into(), record)))
    }

    /// Puts a record into a store, in place of the copy there: one more version,
    /// one more journal entry. Refused: 2 KIND, 3 INDEX, 4 HEADER, 5 FULL,
    /// 6 VERSION.
    pub fn put(&mut self, store: u8, block: &Block<String>) -> Result<(), Refusal> {
        done(with_record(block, |record| boundary::put(&mut self.memory, store.into(), record)))
    }

    /// Removes a copy from a store, with a touch as a put has; where there is
    /// none, nothing changes. Refused: 2 KIND, 6 VERSION.
    pub fn remove(&mut self, store: u8, hash: Hash) -> Result<(), Refusal> {
        done(boundary::remove(&mut self.memory, store.into(), &hash.0))
    }

    /// Gives the eligibility answer for a hash that has room: 0 eligible, 1
    /// eligible for now, 2 ineligible. 0 and 2 are final. Refused: 10 VALUE,
    /// 9 UNKNOWN, 11 FINAL.
    pub fn answer(&mut self, hash: Hash, answer: u64) -> Result<(), Refusal> {
        done(boundary::answer(&mut self.memory, &hash.0, answer))
    }

    /// The effective record of a hash.
    pub fn effective(&self, hash: Hash) -> Option<Block<Amount>> {
        let mut out = [0; 29];
        never(boundary::effective(&self.memory, &hash.0, &mut out));
        shown_of(&out)
    }

    /// How many hashes have an effective record.
    pub fn count(&self) -> u64 {
        self.number(boundary::effective_count)
    }

    /// The generation that the last start or reload named.
    pub fn generation(&self) -> u64 {
        self.number(boundary::generation)
    }

    /// The version: the starting one, and one more for each touch.
    pub fn version(&self) -> u64 {
        self.number(boundary::version)
    }

    fn number(&self, ask: fn(&[u64], &mut u64) -> u64) -> u64 {
        let mut out = 0;
        never(ask(&self.memory, &mut out));
        out
    }

    /// The hashes touched since a generation and version go into the first
    /// places of a list; gives how many, or none if they are not to be had.
    /// Refused: 13 LIST, where the list is too short for them.
    pub fn changes_into(&self, generation: u64, version: u64, list: &mut [Hash]) -> Result<Option<usize>, Refusal> {
        let mut bytes: Vec<u8> = list.iter().flat_map(|hash| hash.0).collect();
        let mut out = [0; 2];
        done(boundary::changes(&self.memory, generation, version, &mut bytes, &mut out))?;
        fill(list, &bytes);
        Ok((out[0] == 1).then_some(out[1] as usize))
    }

    /// The hashes touched since a generation and version, in the order of
    /// their last touch; none if they are not to be had.
    pub fn changes(&self, generation: u64, version: u64) -> Option<Vec<Hash>> {
        // No more hashes than touches since, and no more than the journal has room for.
        let touches = self.version().saturating_sub(version).min(200_000);
        let mut list = vec![Hash([0; 32]); touches as usize];
        let count = promised(self.changes_into(generation, version, &mut list).ok())?;
        list.truncate(count);
        Some(list)
    }

    /// Brings linked and canonical linked values, both best blocks, leaves and
    /// counts up to the records now held; closes loading, and frees the room of
    /// hashes that no store holds. Blocks that it works out anew see the answers
    /// now held; others keep what they saw.
    pub fn sync(&mut self) {
        never(boundary::sync(&mut self.memory));
    }

    // The questions about the tree. Each is refused with 12 STALE where no sync
    // came since the last start, reload, load, put or effective removal.

    /// The block of a hash, if it is live.
    pub fn node(&self, hash: Hash) -> Result<Option<Block<Amount>>, Refusal> {
        self.block(boundary::node, hash)
    }

    /// The parent of a live block: the live block that its previous hash names,
    /// if its index is one less.
    pub fn parent(&self, hash: Hash) -> Result<Option<Block<Amount>>, Refusal> {
        self.block(boundary::parent, hash)
    }

    fn block(
        &self,
        ask: fn(&[u64], &[u8; 32], &mut ShownWords) -> u64,
        hash: Hash,
    ) -> Result<Option<Block<Amount>>, Refusal> {
        let mut out = [0; 29];
        done(ask(&self.memory, &hash.0, &mut out))?;
        Ok(shown_of(&out))
    }

    /// The work of a linked block from index 0 on, and whether the proofs of
    /// its walk are ok; none where it is not linked.
    pub fn linked(&self, hash: Hash) -> Result<Option<Work>, Refusal> {
        self.value(boundary::linked_value, hash)
    }

    /// The same over canonical blocks only, whatever the answers.
    pub fn canonical_linked(&self, hash: Hash) -> Result<Option<Work>, Refusal> {
        self.value(boundary::canonical_linked, hash)
    }

    fn value(&self, ask: fn(&[u64], &[u8; 32], &mut ValueWords) -> u64, hash: Hash) -> Result<Option<Work>, Refusal> {
        let mut out = [0; 3];
        done(ask(&self.memory, &hash.0, &mut out))?;
        Ok(value_of(&out))
    }

    /// The best linked block: greatest work, then greater index, then lower
    /// hash. With its work.
    pub fn best(&self) -> Result<Option<(Block<Amount>, Work)>, Refusal> {
        self.tip(boundary::best)
    }

    /// The best canonical linked block.
    pub fn canonical_best(&self) -> Result<Option<(Block<Amount>, Work)>, Refusal> {
        self.tip(boundary::canonical_best)
    }

    fn tip(
        &self,
        ask: fn(&[u64], &mut ShownWords, &mut ValueWords) -> u64,
    ) -> Result<Option<(Block<Amount>, Work)>, Refusal> {
        let (mut out, mut value) = ([0; 29], [0; 3]);
        done(ask(&self.memory, &mut out, &mut value))?;
        Ok(shown_of(&out).zip(value_of(&value)))
    }

    /// How many blocks are live and have the canonical flag.
    pub fn canonical_count(&self) -> Result<u64, Refusal> {
        self.counted(boundary::canonical_count)
    }

    /// How many blocks are live.
    pub fn live_count(&self) -> Result<u64, Refusal> {
        self.counted(boundary::live_count)
    }

    fn counted(&self, ask: fn(&[u64], &mut u64) -> u64) -> Result<u64, Refusal> {
        let mut out = 0;
        done(ask(&self.memory, &mut out))?;
        Ok(out)
    }

    /// The hashes of the leaves, linked blocks that are no linked block's
    /// parent, go into the first places of a list, by rising hash; gives how
    /// many. (What the tree stands for does not change; it is lent to be written
    /// because words of its memory help to put the list in order.) Refused: 12
    /// STALE, and 13 LIST where the list is too short for them.
    pub fn leaves_into(&mut self, list: &mut [Hash]) -> Result<usize, Refusal> {
        let mut bytes: Vec<u8> = list.iter().flat_map(|hash| hash.0).collect();
        let mut out = [0; 2];
        done(boundary::leaves(&mut self.memory, &mut bytes, &mut out))?;
        fill(list, &bytes);
        Ok(out[1] as usize)
    }

    /// The hashes of the leaves, by rising hash.
    pub fn leaves(&mut self) -> Result<Vec<Hash>, Refusal> {
        let mut list = vec![Hash([0; 32]); self.live_count()? as usize];
        let count = self.leaves_into(&mut list)?;
        list.truncate(count);
        Ok(list)
    }

    // The two plans. Each is refused with 12 STALE as the questions are. A plan
    // changes nothing that the tree stands for: a host puts its entries.

    /// Whether to stand on the best block. A [`Plan::Scan`] says that the tree
    /// cannot tell; otherwise the entries, by index and then hash, are the
    /// blocks that the plan wrote, each with its marks as they stand after it
    /// (one may end as it was). `changed` is 1 after a switch to the best block
    /// or a demotion, else 0.
    ///
    /// ```
    /// use cadraspes::{Block, Entry, Hash, Marks, Plan, Refusal, Terms, Tree};
    /// # if !cadraspes::linked() { return Ok(()); }
    ///
    /// let block = |name: u8, index: u64, canonical: bool| {
    ///     let (hash, prev) = (Hash([name; 32]), Hash([name - 1; 32]));
    ///     let (target, actual) = ("5".to_string(), "5".to_string());
    ///     Block { hash, index, epoch: 0, prev, target, actual, marks: Marks { canonical, ..Marks::default() } }
    /// };
    /// let mut tree = Tree::new(8, 16, 1, 0)?;
    /// tree.load(0, &block(1, 0, true))?;
    /// tree.put(0, &block(2, 1, false))?;
    /// tree.sync();
    ///
    /// let promoted = Entry { hash: Hash([2; 32]), marks: Marks { canonical: true, ..Marks::default() } };
    /// let plan = Plan::Apply { changed: 1, entries: vec![promoted] };
    /// let terms = Terms { floor: None, n: 10, clock: 7 };
    /// assert_eq!(tree.select(&terms)?, plan);
    /// assert_eq!(tree.adopt(&terms)?, plan);
    /// # Ok::<(), Refusal>(())
    /// ```
    pub fn select(&mut self, terms: &Terms) -> Result<Plan, Refusal> {
        self.planned(boundary::select, terms)
    }

    /// The same with a list that is lent, which must have a place for each live
    /// block: entries go into its first places. Gives `changed` and how many;
    /// none is [`Plan::Scan`]. Refused: 12 STALE, and 13 LIST where the list is
    /// shorter.
    pub fn select_into(&mut self, terms: &Terms, list: &mut [Entry]) -> Result<Option<(u64, usize)>, Refusal> {
        self.planned_into(boundary::select, terms, list)
    }

    /// Whether to take a branch that grew beside the canonical line. `changed`
    /// is how many of its blocks were safe to take, 0 where none won. As
    /// [`Tree::select`] otherwise.
    pub fn adopt(&mut self, terms: &Terms) -> Result<Plan, Refusal> {
        self.planned(boundary::adopt, terms)
    }

    /// As [`Tree::select_into`].
    pub fn adopt_into(&mut self, terms: &Terms, list: &mut [Entry]) -> Result<Option<(u64, usize)>, Refusal> {
        self.planned_into(boundary::adopt, terms, list)
    }

    fn planned(&mut self, plan: Planner, terms: &Terms) -> Result<Plan, Refusal> {
        let mut words = vec![[0; 16]; self.live_count()? as usize];
        let mut out = [0; 3];
        done(plan(&mut self.memory, terms, &mut words, &mut out))?;
        let entries =
            |(changed, count)| Plan::Apply { changed, entries: words.iter().take(count).map(entry_of).collect() };
        Ok(applied(&out).map_or(Plan::Scan, entries))
    }

    fn planned_into(
        &mut self,
        plan: Planner,
        terms: &Terms,
        list: &mut [Entry],
    ) -> Result<Option<(u64, usize)>, Refusal> {
        let mut words: Vec<EntryWords> = list.iter().map(entry_words).collect();
        let mut out = [0; 3];
        done(plan(&mut self.memory, terms, &mut words, &mut out))?;
        list.iter_mut().zip(&words).for_each(|(place, words)| *place = entry_of(words));
        Ok(applied(&out))
    }

    /// The value of an amount text; none where it is unreadable.
    pub fn amount(text: &str) -> Amount {
        let mut out = [0; 3];
        never(boundary::amount(text.as_bytes(), &mut out));
        reading_of(out[0], &out[1..])
    }

    /// The words of its memory.
    pub fn memory(&self) -> &[u64] {
        &self.memory
    }
}

type Planner = fn(&mut [u64], &Terms, &mut [EntryWords], &mut PlannedWords) -> u64;

/// `changed` and how many entries; none for a scan.
fn applied(out: &PlannedWords) -> Option<(u64, usize)> {
    (out[0] == 1).then_some((out[1], out[2] as usize))
}

/// Places of a list out of 32 bytes each.
fn fill(list: &mut [Hash], bytes: &[u8]) {
    for (place, hash) in list.iter_mut().zip(bytes.chunks_exact(32)) {
        place.0.copy_from_slice(hash);
    }
}

fn with_record<T>(block: &Block<String>, call: impl FnOnce(&Record) -> T) -> T {
    let copy = copy_words(&block.marks);
    call(&Record {
        hash: &block.hash.0,
        index: block.index,
        epoch: block.epoch,
        prev: &block.prev.0,
        target: block.target.as_bytes(),
        actual: block.actual.as_bytes(),
        copy: &copy,
    })
}
