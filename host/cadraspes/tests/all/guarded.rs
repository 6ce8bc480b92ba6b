//! The library with guards on both sides of everything that it is lent. After
//! each call the guards are looked at, and after a refusal that nothing that
//! was lent has changed.
use cadraspes::boundary::{self, EntryWords, PlannedWords, Record, ShownWords, SideWords, ValueWords};
use cadraspes::words::{choice_of, copy_words, entry_of, reading_of, shown_of, side_words, value_of};
use cadraspes::{room, Hash, Plan, Side, Terms};
use history::{Answer, Block, Call};

const GUARD: u64 = 0x6a09_e667_f3bc_c908;
const GUARD_WORDS: usize = 64;

/// Words between guards. Bytes are lent as words' bytes would be, so a list is
/// kept beside in its own guards.
#[derive(Clone)]
pub struct Words(Vec<u64>);

impl Words {
    pub fn new(words: &[u64]) -> Words {
        let guard = [GUARD; GUARD_WORDS];
        Words([&guard, words, &guard].concat())
    }

    pub fn inner(&mut self) -> &mut [u64] {
        let end = self.0.len() - GUARD_WORDS;
        &mut self.0[GUARD_WORDS..end]
    }

    pub fn shown(&self) -> &[u64] {
        &self.0[GUARD_WORDS..self.0.len() - GUARD_WORDS]
    }

    pub fn check(&self) {
        let guards = self.0[..GUARD_WORDS].iter().chain(&self.0[self.0.len() - GUARD_WORDS..]);
        assert!(guards.copied().eq([GUARD; 2 * GUARD_WORDS]), "a guard word was written");
    }
}

/// Bytes between guards.
#[derive(Clone)]
pub struct Bytes(Vec<u8>);

impl Bytes {
    pub fn new(bytes: &[u8]) -> Bytes {
        let guard = [0x5c; 512];
        Bytes([&guard, bytes, &guard].concat())
    }

    pub fn inner(&mut self) -> &mut [u8] {
        let end = self.0.len() - 512;
        &mut self.0[512..end]
    }

    pub fn shown(&self) -> &[u8] {
        &self.0[512..self.0.len() - 512]
    }

    pub fn check(&self) {
        let guards = self.0[..512].iter().chain(&self.0[self.0.len() - 512..]);
        assert!(guards.copied().eq([0x5c; 1024]), "a guard byte was written");
    }
}

/// What the words hold that a question is lent.
const OUT: u64 = 0x1f83_d9ab_fb41_bd6b;

/// A place of a list before it is lent.
pub const PLACE: Hash = Hash([0xc3; 32]);

/// What a question gave: its number, and the words it wrote.
pub struct Asked {
    pub number: u64,
    pub words: Vec<u64>,
}

/// A memory between guards.
#[derive(Clone)]
pub struct Memory(pub Words);

impl Memory {
    /// A call that may change the memory.
    pub fn call(&mut self, call: impl FnOnce(&mut [u64]) -> u64) -> u64 {
        let before = self.0.clone();
        let number = call(self.0.inner());
        self.0.check();
        assert!(number <= 13, "{number} is no number of document 01");
        assert!(number == 0 || self.0 .0 == before.0, "a call refused with {number} changed the memory");
        number
    }

    /// A question, lent `count` words.
    fn ask<const N: usize>(&self, ask: impl FnOnce(&[u64], &mut [u64; N]) -> u64) -> Asked {
        let mut out = Words::new(&[OUT; N]);
        let number = ask(self.0.shown(), out.inner().try_into().expect("N words"));
        self.0.check();
        out.check();
        assert!(number <= 13, "{number} is no number of document 01");
        assert!(number == 0 || out.shown() == [OUT; N], "a question refused with {number} wrote an answer");
        Asked { number, words: out.shown().to_vec() }
    }

    pub fn load(&mut self, store: u64, block: &Block<String>) -> u64 {
        self.call(|mem| with_record(block, |record| boundary::load(mem, store, record)))
    }

    pub fn put(&mut self, store: u64, block: &Block<String>) -> u64 {
        self.call(|mem| with_record(block, |record| boundary::put(mem, store, record)))
    }

    pub fn remove(&mut self, store: u64, hash: Hash) -> u64 {
        self.call(|mem| boundary::remove(mem, store, &hash.0))
    }

    pub fn effective(&self, hash: Hash) -> Asked {
        self.block(boundary::effective, hash)
    }

    pub fn block(&self, ask: AskBlock, hash: Hash) -> Asked {
        let asked = self.ask::<29>(|mem, out| ask(mem, &hash.0, out));
        assert!(none_stays(&asked), "none was shown, and words were written");
        asked
    }

    pub fn value(&self, ask: AskValue, hash: Hash) -> Asked {
        let asked = self.ask::<3>(|mem, out| ask(mem, &hash.0, out));
        assert!(asked.number > 0 || value_is_told(&asked.words), "{:?}", asked.words);
        asked
    }

    /// The words of the block, then those of the value.
    pub fn tip(&self, ask: AskTip) -> Asked {
        let mut value = Words::new(&[OUT; 3]);
        let lent = value.inner().try_into().expect("three words");
        let mut asked = self.ask::<29>(|mem, out| ask(mem, out, lent));
        value.check();
        assert!(none_stays(&asked), "none was shown, and words were written");
        let words = value.shown();
        if asked.number > 0 {
            assert_eq!(words, [OUT; 3], "a question refused with {} wrote an answer", asked.number);
        } else {
            assert!(value_is_told(words) && (words[0] > 0) == (asked.words[0] == 1), "{words:?}");
        }
        asked.words.extend(words);
        asked
    }

    pub fn number(&self, ask: fn(&[u64], &mut u64) -> u64) -> Asked {
        self.ask::<1>(|mem, out| ask(mem, &mut out[0]))
    }

    /// With a list of that many bytes, each of it that of an untouched place.
    pub fn changes(&self, generation: u64, version: u64, bytes: usize) -> (Asked, Vec<u8>) {
        let mut list = Bytes::new(&vec![PLACE.0[0]; bytes]);
        let asked = self.ask::<2>(|mem, out| boundary::changes(mem, generation, version, list.inner(), out));
        list.check();
        let untouched = list.shown().iter().all(|byte| *byte == PLACE.0[0]);
        assert!(asked.number == 0 || untouched, "a question refused with {} wrote a list", asked.number);
        (asked, list.shown().to_vec())
    }

    /// The same of the leaves, a question that is lent the memory to write.
    pub fn leaves(&mut self, bytes: usize) -> (Asked, Vec<u8>) {
        let (mut list, mut out) = (Bytes::new(&vec![PLACE.0[0]; bytes]), Words::new(&[OUT; 2]));
        let lent = out.inner().try_into().expect("two words");
        let number = self.call(|mem| boundary::leaves(mem, list.inner(), lent));
        list.check();
        out.check();
        let untouched = list.shown().iter().all(|byte| *byte == PLACE.0[0]) && out.shown() == [OUT; 2];
        assert!(number == 0 || untouched, "a question refused with {number} wrote an answer");
        (Asked { number, words: out.shown().to_vec() }, list.shown().to_vec())
    }

    /// A plan, with a list of so many places. Those past its entries must stay.
    pub fn plan(&mut self, plan: AskPlan, terms: &Terms, places: usize) -> (Asked, Vec<EntryWords>) {
        let (mut list, mut out) = (Words::new(&vec![OUT; 16 * places]), Words::new(&[OUT; 3]));
        let (lent, rest) = list.inner().as_chunks_mut::<16>();
        assert!(rest.is_empty());
        let told = out.inner().try_into().expect("three words");
        let number = self.call(|mem| plan(mem, terms, lent, told));
        list.check();
        out.check();
        let untouched = list.shown().iter().chain(out.shown()).all(|word| *word == OUT);
        assert!(number == 0 || untouched, "a plan refused with {number} wrote an answer");
        let entries = list.shown().as_chunks::<16>().0.to_vec();
        if number == 0 {
            let told = out.shown();
            assert!(told[0] == 1 || told == [0, 0, 0], "{told:?}");
            assert!(entries[told[2] as usize..].iter().all(|entry| *entry == [OUT; 16]), "places past the end");
        }
        (Asked { number, words: out.shown().to_vec() }, entries)
    }
}

pub type AskPlan = fn(&mut [u64], &Terms, &mut [EntryWords], &mut PlannedWords) -> u64;
pub type AskBlock = fn(&[u64], &[u8; 32], &mut ShownWords) -> u64;
pub type AskValue = fn(&[u64], &[u8; 32], &mut ValueWords) -> u64;
pub type AskTip = fn(&[u64], &mut ShownWords, &mut ValueWords) -> u64;

/// Where there is no block to show, one word is written.
fn none_stays(asked: &Asked) -> bool {
    asked.number > 0 || asked.words[0] == 1 || (asked.words[0] == 0 && asked.words[1..] == [OUT; 28])
}

/// Three zeros, or a kind of 1 or 2 before any two words.
fn value_is_told(words: &[u64]) -> bool {
    words == [0; 3] || words[0] == 1 || words[0] == 2
}

/// With the texts, the copy's words and the hashes in guards of their own,
/// which a call must leave alone too.
fn with_record(block: &Block<String>, call: impl FnOnce(&Record) -> u64) -> u64 {
    let copy = Words::new(&copy_words(&block.marks));
    let (target, actual) = (Bytes::new(block.target.as_bytes()), Bytes::new(block.actual.as_bytes()));
    let before = (copy.clone(), target.clone(), actual.clone());
    let number = call(&Record {
        hash: &block.hash.0,
        index: block.index,
        epoch: block.epoch,
        prev: &block.prev.0,
        target: target.shown(),
        actual: actual.shown(),
        copy: copy.shown().try_into().expect("twelve words"),
    });
    assert!((copy.0, target.0, actual.0) == (before.0 .0, before.1 .0, before.2 .0), "what is only read was written");
    number
}

/// Histories on a guarded memory.
#[derive(Default)]
pub struct Library {
    pub memory: Option<Memory>,
    lend: Option<u64>,
}

impl Library {
    pub fn call(&mut self, call: &Call) -> Answer {
        let lend = self.lend;
        // Before a start: a memory of no words, of which the library answers 1.
        let mut none = Memory(Words::new(&[]));
        let memory = self.memory.as_mut().unwrap_or(&mut none);
        match call {
            Call::Start { hashes, journal, generation, version } => {
                self.start(*hashes, *journal, *generation, *version)
            }
            Call::Reload { generation, version } => {
                done(memory.call(|mem| boundary::reload(mem, *generation, *version)))
            }
            Call::Load(store, block) => done(memory.load((*store).into(), block)),
            Call::Put(store, block) => done(memory.put((*store).into(), block)),
            Call::Remove(store, hash) => done(memory.remove((*store).into(), *hash)),
            Call::Answer(hash, value) => done(memory.call(|mem| boundary::answer(mem, &hash.0, *value))),
            Call::Sync => done(memory.call(boundary::sync)),
            Call::Effective(hash) => shown(memory.effective(*hash)),
            Call::Node(hash) => shown(memory.block(boundary::node, *hash)),
            Call::Parent(hash) => shown(memory.block(boundary::parent, *hash)),
            Call::Linked(hash) => worth(memory.value(boundary::linked_value, *hash)),
            Call::CanonicalLinked(hash) => worth(memory.value(boundary::canonical_linked, *hash)),
            Call::Best => tip(memory.tip(boundary::best)),
            Call::CanonicalBest => tip(memory.tip(boundary::canonical_best)),
            Call::CanonicalCount => number(memory.number(boundary::canonical_count)),
            Call::LiveCount => number(memory.number(boundary::live_count)),
            Call::Count => number(memory.number(boundary::effective_count)),
            Call::Generation => number(memory.number(boundary::generation)),
            Call::Version => number(memory.number(boundary::version)),
            Call::Leaves => leaves(memory, lend),
            Call::Changes { generation, version } => changes(memory, *generation, *version, lend),
            Call::Select(terms) => plan(memory, boundary::select, terms, lend),
            Call::Adopt(terms) => plan(memory, boundary::adopt, terms, lend),
            Call::Choose(local, remote) => chosen(local, remote),
            Call::Amount(text) => amount(text),
            Call::Lend(length) => {
                self.lend = *length;
                Answer::Done
            }
        }
    }

    /// In a memory of exactly the words needed, which hold anything.
    fn start(&mut self, hashes: u64, journal: u64, generation: u64, version: u64) -> Answer {
        let words = if hashes <= 32_768 && journal <= 200_000 { room(hashes, journal) as usize } else { 4096 };
        let mut memory = Memory(Words::new(&vec![0x510e_527f_ade6_82d1; words]));
        let number = memory.call(|mem| boundary::start(mem, hashes, journal, generation, version));
        if number == 0 {
            *self = Library { memory: Some(memory), lend: None };
        }
        done(number)
    }
}

fn done(number: u64) -> Answer {
    match number {
        0 => Answer::Done,
        _ => Answer::Refused(number as u8),
    }
}

fn answer(asked: Asked, read: impl FnOnce(&[u64]) -> Answer) -> Answer {
    match asked.number {
        0 => read(&asked.words),
        number => Answer::Refused(number as u8),
    }
}

fn number(asked: Asked) -> Answer {
    answer(asked, |words| Answer::Number(words[0]))
}

fn shown(asked: Asked) -> Answer {
    answer(asked, |words| shown_of(words.try_into().expect("29 words")).map_or(Answer::None, Answer::Block))
}

fn worth(asked: Asked) -> Answer {
    answer(asked, |words| value_of(words.try_into().expect("three words")).map_or(Answer::None, Answer::Work))
}

fn tip(asked: Asked) -> Answer {
    answer(asked, |words| {
        let (block, value) = words.split_at(29);
        let block = shown_of(block.try_into().expect("29 words"));
        let value = value_of(value.try_into().expect("three words"));
        block.zip(value).map_or(Answer::None, |(block, value)| Answer::Tip(block.hash, value))
    })
}

/// With a list of the length lent, or two places more than could be needed.
fn changes(memory: &Memory, generation: u64, version: u64, lend: Option<u64>) -> Answer {
    let places = lend.unwrap_or(memory.number(boundary::version).words[0].saturating_sub(version).min(200_000) + 2);
    listed(memory.changes(generation, version, 32 * places as usize))
}

fn leaves(memory: &mut Memory, lend: Option<u64>) -> Answer {
    let places = lend.unwrap_or(memory.number(boundary::effective_count).words[0] + 2);
    listed(memory.leaves(32 * places as usize))
}

/// With a list of the length lent, or two places more than could be needed.
fn plan(memory: &mut Memory, plan: AskPlan, terms: &Terms, lend: Option<u64>) -> Answer {
    let places = lend.unwrap_or(memory.number(boundary::effective_count).words[0] + 2);
    let (asked, entries) = memory.plan(plan, terms, places as usize);
    answer(asked, |words| {
        let entries = || entries[..words[2] as usize].iter().map(entry_of).collect();
        let applied = || Plan::Apply { changed: words[1], entries: entries() };
        Answer::Plan(if words[0] == 1 { applied() } else { Plan::Scan })
    })
}

fn listed((asked, list): (Asked, Vec<u8>)) -> Answer {
    let (there, count) = (asked.words[0] == 1, asked.words[1] as usize);
    answer(asked, |_| {
        let filled = if there { count } else { 0 };
        let (hashes, rest) = list.split_at(32 * filled);
        assert!(rest.iter().all(|byte| *byte == PLACE.0[0]), "places past the answer's end were written");
        let hashes = hashes.chunks_exact(32).map(|hash| Hash(hash.try_into().expect("32 bytes"))).collect();
        if there {
            Answer::Hashes(hashes)
        } else {
            Answer::None
        }
    })
}

fn chosen(local: &Side<String>, remote: &Side<String>) -> Answer {
    let sides = [local, remote].map(|side| {
        let work = side.work.as_deref().and_then(|text| text.parse().ok());
        (side_words(&Side { work, index: side.index, hash: side.hash }), side.hash)
    });
    answer(chosen_of(sides), |words| {
        let (choice, reason) = choice_of(words.try_into().expect("six words"));
        Answer::Chosen(choice, reason)
    })
}

/// Of sides of any words, which are in guards and must stay as they were.
pub fn chosen_of(sides: [(SideWords, Hash); 2]) -> Asked {
    let lent = sides.map(|(words, hash)| (Words::new(&words), Bytes::new(&hash.0)));
    let before = lent.clone();
    let mut out = Words::new(&[OUT; 6]);
    let side = |at: usize| lent[at].0.shown().try_into().expect("four words");
    let hash = |at: usize| lent[at].1.shown().try_into().expect("32 bytes");
    let number = boundary::choose(side(0), hash(0), side(1), hash(1), out.inner().try_into().expect("six words"));
    out.check();
    assert!(lent.iter().zip(&before).all(|(now, then)| now.0 .0 == then.0 .0 && now.1 .0 == then.1 .0));
    Asked { number, words: out.shown().to_vec() }
}

fn amount(text: &str) -> Answer {
    answer(amount_of(text.as_bytes()), |words| Answer::Amount(reading_of(words[0], &words[1..])))
}

/// Of bytes of any kind, which must stay as they were.
pub fn amount_of(text: &[u8]) -> Asked {
    let (lent, mut out) = (Bytes::new(text), Words::new(&[OUT; 3]));
    let number = boundary::amount(lent.shown(), out.inner().try_into().expect("three words"));
    out.check();
    assert!(lent.0 == Bytes::new(text).0, "what is only read was written");
    Asked { number, words: out.shown().to_vec() }
}

#[test]
fn a_guard_that_was_written_is_noticed() {
    let noticed = |check: &dyn Fn()| std::panic::catch_unwind(std::panic::AssertUnwindSafe(check)).is_err();
    for at in [0, GUARD_WORDS - 1, GUARD_WORDS + 3, 2 * GUARD_WORDS + 2] {
        let mut words = Words::new(&[7, 8, 9]);
        assert!(!noticed(&|| words.check()));
        words.0[at] ^= 1;
        assert!(noticed(&|| words.check()), "word {at}");
    }
    for at in [0, 511, 515, 1026] {
        let mut bytes = Bytes::new(&[7, 8, 9]);
        assert!(!noticed(&|| bytes.check()));
        bytes.0[at] ^= 1;
        assert!(noticed(&|| bytes.check()), "byte {at}");
    }
}

#[test]
fn a_refusal_that_changes_something_is_noticed() {
    let noticed = |number: u64| {
        let call = || Memory(Words::new(&[7])).call(|mem| (mem[0] = 8, number).1);
        std::panic::catch_unwind(call).is_err()
    };
    assert!(!noticed(0) && noticed(1) && noticed(13));
    assert!(std::panic::catch_unwind(|| Memory(Words::new(&[7])).call(|_| 14)).is_err(), "14 is no number");
}
