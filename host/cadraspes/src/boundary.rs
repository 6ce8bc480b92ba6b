//! The boundary: the library's functions of C as safe functions on slices. A
//! call gives back document 01's number. What makes them safe is proved of the
//! library: on any memory whatever a call ends, stays inside of what it was
//! lent, and a refusal changes nothing.
#![allow(unsafe_code)]
use crate::{Refusal, Terms};

/// What a block's copy takes: the twelve words of docs/MEMORY.md.
pub type CopyWords = [u64; 12];

/// What a question for a block writes: 1 if there is one, else 0; then the
/// sixteen words of its header and the twelve of its copy.
pub type ShownWords = [u64; 29];

/// What a question for a linked value writes: 0 for none, 1, or 2 where proofs
/// are ok; then the two words of work, the lower first.
pub type ValueWords = [u64; 3];

/// A side of a comparison: 1 and the two words of its work, the lower first,
/// or another number and two more where it is unknown; then its tip's index.
pub type SideWords = [u64; 4];

/// What a comparison writes: 0 equal, 1 keep local, 2 adopt peer; then the kind
/// of the reason and its four words, as in a copy.
pub type ChoiceWords = [u64; 6];

/// An entry of a plan, as it lies in the list: the four words of its hash, the
/// most significant first, and the twelve of a copy.
pub type EntryWords = [u64; 16];

/// What a plan writes beside its list: 0 scan or 1 apply, `changed`, and how
/// many entries stand in the list.
pub type PlannedWords = [u64; 3];

/// True when the library was there to link.
pub const fn linked() -> bool {
    cfg!(linked)
}

/// What to say where it was not.
pub const NOT_LINKED: &str =
    "the library was not there to link (run tools/native-staticlib cadraspes, then build anew): \
                              what needs it was not run";

/// Declares the functions of C; where they are not linked, calling one panics.
macro_rules! functions {
    ($(fn $name:ident($($argument:ident: $type:ty),*);)*) => {
        #[cfg(linked)]
        extern "C" {
            $(fn $name($($argument: $type),*) -> u64;)*
        }
        $(#[cfg(not(linked))]
        unsafe fn $name($(_: $type),*) -> u64 {
            panic!("{NOT_LINKED}")
        })*
    };
}

// A slice crosses as a pointer and a length, a reference as a pointer.
functions! {
    fn cadraspes_start(mem: *mut u64, len: usize, hashes: u64, journal: u64, generation: u64, version: u64);
    fn cadraspes_reload(mem: *mut u64, len: usize, generation: u64, version: u64);
    fn cadraspes_load(
        mem: *mut u64, len: usize, store: u64, hash: &[u8; 32], index: u64, epoch: u64, prev: &[u8; 32],
        target: *const u8, target_len: usize, actual: *const u8, actual_len: usize, copy: &CopyWords
    );
    fn cadraspes_put(
        mem: *mut u64, len: usize, store: u64, hash: &[u8; 32], index: u64, epoch: u64, prev: &[u8; 32],
        target: *const u8, target_len: usize, actual: *const u8, actual_len: usize, copy: &CopyWords
    );
    fn cadraspes_remove(mem: *mut u64, len: usize, store: u64, hash: &[u8; 32]);
    fn cadraspes_answer(mem: *mut u64, len: usize, hash: &[u8; 32], answer: u64);
    fn cadraspes_effective(mem: *const u64, len: usize, hash: &[u8; 32], out: &mut ShownWords);
    fn cadraspes_effective_count(mem: *const u64, len: usize, out: &mut u64);
    fn cadraspes_generation(mem: *const u64, len: usize, out: &mut u64);
    fn cadraspes_version(mem: *const u64, len: usize, out: &mut u64);
    fn cadraspes_changes(
        mem: *const u64, len: usize, generation: u64, version: u64, list: *mut u8, list_len: usize, out: &mut [u64; 2]
    );
    fn cadraspes_sync(mem: *mut u64, len: usize);
    fn cadraspes_node(mem: *const u64, len: usize, hash: &[u8; 32], out: &mut ShownWords);
    fn cadraspes_parent(mem: *const u64, len: usize, hash: &[u8; 32], out: &mut ShownWords);
    fn cadraspes_linked(mem: *const u64, len: usize, hash: &[u8; 32], out: &mut ValueWords);
    fn cadraspes_canonical_linked(mem: *const u64, len: usize, hash: &[u8; 32], out: &mut ValueWords);
    fn cadraspes_best(mem: *const u64, len: usize, out: &mut ShownWords, value: &mut ValueWords);
    fn cadraspes_canonical_best(mem: *const u64, len: usize, out: &mut ShownWords, value: &mut ValueWords);
    fn cadraspes_canonical_count(mem: *const u64, len: usize, out: &mut u64);
    fn cadraspes_live_count(mem: *const u64, len: usize, out: &mut u64);
    fn cadraspes_leaves(mem: *mut u64, len: usize, list: *mut u8, list_len: usize, out: &mut [u64; 2]);
    fn cadraspes_select(
        mem: *mut u64, len: usize, floor_given: u64, floor: u64, per_epoch: u64, clock: i64,
        list: *mut EntryWords, entries: usize, out: &mut PlannedWords
    );
    fn cadraspes_adopt(
        mem: *mut u64, len: usize, floor_given: u64, floor: u64, per_epoch: u64, clock: i64,
        list: *mut EntryWords, entries: usize, out: &mut PlannedWords
    );
    fn cadraspes_choose(
        local: &SideWords, local_hash: &[u8; 32], peer: &SideWords, peer_hash: &[u8; 32], out: &mut ChoiceWords
    );
    fn cadraspes_covers(index: u64, epoch: u64, per_epoch: u64);
    fn cadraspes_amount(text: *const u8, len: usize, out: &mut [u64; 3]);
}

/// What the contracts of the library promise, and all that this crate takes on
/// their word: it stops here, and nowhere else, if one were not kept.
pub fn promised<T>(what: Option<T>) -> T {
    what.expect("the library keeps its contracts")
}

/// Document 01's number as a result.
pub fn done(number: u64) -> Result<(), Refusal> {
    match number {
        0 => Ok(()),
        _ => Err(promised(Refusal::of(number))),
    }
}

/// Of calls that are never refused on a memory that calls left.
pub fn never(number: u64) {
    promised((number == 0).then_some(()));
}

/// A record as it crosses: amounts as texts, the rest of a copy as words.
#[derive(Clone, Copy, Debug)]
pub struct Record<'a> {
    pub hash: &'a [u8; 32],
    pub index: u64,
    pub epoch: u64,
    pub prev: &'a [u8; 32],
    pub target: &'a [u8],
    pub actual: &'a [u8],
    pub copy: &'a CopyWords,
}

pub fn start(mem: &mut [u64], hashes: u64, journal: u64, generation: u64, version: u64) -> u64 {
    unsafe { cadraspes_start(mem.as_mut_ptr(), mem.len(), hashes, journal, generation, version) }
}

pub fn reload(mem: &mut [u64], generation: u64, version: u64) -> u64 {
    unsafe { cadraspes_reload(mem.as_mut_ptr(), mem.len(), generation, version) }
}

pub fn load(mem: &mut [u64], store: u64, r: &Record) -> u64 {
    let ((target, target_len), (actual, actual_len)) = (parts(r.target), parts(r.actual));
    let (mem, len) = (mem.as_mut_ptr(), mem.len());
    unsafe {
        cadraspes_load(
            mem, len, store, r.hash, r.index, r.epoch, r.prev, target, target_len, actual, actual_len, r.copy,
        )
    }
}

pub fn put(mem: &mut [u64], store: u64, r: &Record) -> u64 {
    let ((target, target_len), (actual, actual_len)) = (parts(r.target), parts(r.actual));
    let (mem, len) = (mem.as_mut_ptr(), mem.len());
    unsafe {
        cadraspes_put(mem, len, store, r.hash, r.index, r.epoch, r.prev, target, target_len, actual, actual_len, r.copy)
    }
}

fn parts(bytes: &[u8]) -> (*const u8, usize) {
    (bytes.as_ptr(), bytes.len())
}

pub fn remove(mem: &mut [u64], store: u64, hash: &[u8; 32]) -> u64 {
    unsafe { cadraspes_remove(mem.as_mut_ptr(), mem.len(), store, hash) }
}

pub fn answer(mem: &mut [u64], hash: &[u8; 32], answer: u64) -> u64 {
    unsafe { cadraspes_answer(mem.as_mut_ptr(), mem.len(), hash, answer) }
}

pub fn effective(mem: &[u64], hash: &[u8; 32], out: &mut ShownWords) -> u64 {
    unsafe { cadraspes_effective(mem.as_ptr(), mem.len(), hash, out) }
}

pub fn effective_count(mem: &[u64], out: &mut u64) -> u64 {
    unsafe { cadraspes_effective_count(mem.as_ptr(), mem.len(), out) }
}

pub fn generation(mem: &[u64], out: &mut u64) -> u64 {
    unsafe { cadraspes_generation(mem.as_ptr(), mem.len(), out) }
}

pub fn version(mem: &[u64], out: &mut u64) -> u64 {
    unsafe { cadraspes_version(mem.as_ptr(), mem.len(), out) }
}

/// The list has 32 bytes a place. Writes 1 and the count, or 0 and 0 where
/// none are to be had.
pub fn changes(mem: &[u64], generation: u64, version: u64, list: &mut [u8], out: &mut [u64; 2]) -> u64 {
    let (places, bytes) = (list.as_mut_ptr(), list.len());
    unsafe { cadraspes_changes(mem.as_ptr(), mem.len(), generation, version, places, bytes, out) }
}

pub fn sync(mem: &mut [u64]) -> u64 {
    unsafe { cadraspes_sync(mem.as_mut_ptr(), mem.len()) }
}

pub fn node(mem: &[u64], hash: &[u8; 32], out: &mut ShownWords) -> u64 {
    unsafe { cadraspes_node(mem.as_ptr(), mem.len(), hash, out) }
}

pub fn parent(mem: &[u64], hash: &[u8; 32], out: &mut ShownWords) -> u64 {
    unsafe { cadraspes_parent(mem.as_ptr(), mem.len(), hash, out) }
}

pub fn linked_value(mem: &[u64], hash: &[u8; 32], out: &mut ValueWords) -> u64 {
    unsafe { cadraspes_linked(mem.as_ptr(), mem.len(), hash, out) }
}

pub fn canonical_linked(mem: &[u64], hash: &[u8; 32], out: &mut ValueWords) -> u64 {
    unsafe { cadraspes_canonical_linked(mem.as_ptr(), mem.len(), hash, out) }
}

pub fn best(mem: &[u64], out: &mut ShownWords, value: &mut ValueWords) -> u64 {
    unsafe { cadraspes_best(mem.as_ptr(), mem.len(), out, value) }
}

pub fn canonical_best(mem: &[u64], out: &mut ShownWords, value: &mut ValueWords) -> u64 {
    unsafe { cadraspes_canonical_best(mem.as_ptr(), mem.len(), out, value) }
}

pub fn canonical_count(mem: &[u64], out: &mut u64) -> u64 {
    unsafe { cadraspes_canonical_count(mem.as_ptr(), mem.len(), out) }
}

pub fn live_count(mem: &[u64], out: &mut u64) -> u64 {
    unsafe { cadraspes_live_count(mem.as_ptr(), mem.len(), out) }
}

/// The list has 32 bytes a place. Writes 1 and the count. Words of the memory
/// that nothing else reads help to put the list in order.
pub fn leaves(mem: &mut [u64], list: &mut [u8], out: &mut [u64; 2]) -> u64 {
    let (places, bytes) = (list.as_mut_ptr(), list.len());
    unsafe { cadraspes_leaves(mem.as_mut_ptr(), mem.len(), places, bytes, out) }
}

/// The list needs as many places as there are live blocks.
pub fn select(mem: &mut [u64], terms: &Terms, list: &mut [EntryWords], out: &mut PlannedWords) -> u64 {
    let (given, floor) = (u64::from(terms.floor.is_some()), terms.floor.unwrap_or(0));
    let (places, entries) = (list.as_mut_ptr(), list.len());
    unsafe { cadraspes_select(mem.as_mut_ptr(), mem.len(), given, floor, terms.n, terms.clock, places, entries, out) }
}

/// The list needs as many places as there are live blocks.
pub fn adopt(mem: &mut [u64], terms: &Terms, list: &mut [EntryWords], out: &mut PlannedWords) -> u64 {
    let (given, floor) = (u64::from(terms.floor.is_some()), terms.floor.unwrap_or(0));
    let (places, entries) = (list.as_mut_ptr(), list.len());
    unsafe { cadraspes_adopt(mem.as_mut_ptr(), mem.len(), given, floor, terms.n, terms.clock, places, entries, out) }
}

/// Two sides, each with its tip's hash.
pub fn choose(
    local: &SideWords,
    local_hash: &[u8; 32],
    peer: &SideWords,
    peer_hash: &[u8; 32],
    out: &mut ChoiceWords,
) -> u64 {
    unsafe { cadraspes_choose(local, local_hash, peer, peer_hash, out) }
}

/// Gives back 1 or 0, and no number of document 01.
pub fn covers(index: u64, epoch: u64, per_epoch: u64) -> u64 {
    unsafe { cadraspes_covers(index, epoch, per_epoch) }
}

/// Writes 1 and the two words of the value, the lower first, or three zeros
/// where the text is unreadable.
pub fn amount(text: &[u8], out: &mut [u64; 3]) -> u64 {
    unsafe { cadraspes_amount(text.as_ptr(), text.len(), out) }
}
