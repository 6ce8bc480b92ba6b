//! What both sides hold for the same blocks: the library's words by its formula,
//! and of the original the bytes it asked the allocator for and has not given
//! back. The blocks are the script's, in the active store, and synced.
#![allow(unsafe_code)]
use crate::rows::held_at;
use crate::script::{Script, Step};
use crate::side::{original, Call};
use cadraspes::room;
use std::alloc::{GlobalAlloc, Layout, System};
use std::cell::Cell;

thread_local!(static HELD: Cell<usize> = const { Cell::new(0) });

/// The system's allocator, which counts. (By thread and without a lock, so that
/// what is timed pays next to nothing for it.)
struct Counting;

#[global_allocator]
static COUNTING: Counting = Counting;

fn count(more: usize, less: usize) {
    HELD.set(HELD.get().wrapping_add(more).wrapping_sub(less));
}

unsafe impl GlobalAlloc for Counting {
    unsafe fn alloc(&self, layout: Layout) -> *mut u8 {
        count(layout.size(), 0);
        System.alloc(layout)
    }
    unsafe fn alloc_zeroed(&self, layout: Layout) -> *mut u8 {
        count(layout.size(), 0);
        System.alloc_zeroed(layout)
    }
    unsafe fn dealloc(&self, at: *mut u8, layout: Layout) {
        count(0, layout.size());
        System.dealloc(at, layout)
    }
    unsafe fn realloc(&self, at: *mut u8, layout: Layout, size: usize) -> *mut u8 {
        count(size, layout.size());
        System.realloc(at, layout, size)
    }
}

/// Bytes that the original holds after a load, so many puts, and a sync. What
/// the bench alone holds is taken off: its list of the blocks, 8 bytes each, and
/// the blocks themselves once others were put in their place. (Until then they
/// are those that the original's cache and tree hold.)
fn original_bytes(script: &Script, puts: usize) -> usize {
    let (before, held) = (HELD.get(), script.blocks.len());
    assert!(puts == 0 || puts >= held, "none of the blocks is put again, or each");
    let mut side = original(script);
    let bench = if puts == 0 { 8 * held } else { HELD.get() - before };
    side(Call::Step(Step::Start(held)));
    side(Call::Step(Step::Sync));
    (0..puts).for_each(|at| drop(side(Call::Step(Step::Put(at % held)))));
    side(Call::Step(Step::Sync));
    let bytes = HELD.get() - before - bench;
    drop(side);
    bytes
}

/// Journal entries there are, and the library's journal room.
const JOURNALS: [(usize, u64); 3] = [(0, 4_096), (0, 200_000), (200_000, 200_000)];

pub fn table() {
    if !original::at_hand() {
        eprintln!("the original's sources are not at hand: nothing is measured beside it");
        return;
    }
    println!("| blocks held | journal entries | library's journal room | library, words | library, bytes | original, bytes | library / original |");
    println!("|---:|---:|---:|---:|---:|---:|---:|");
    for script in held_at() {
        for (entries, journal) in JOURNALS {
            let (held, words) = (script.blocks.len(), room(script.blocks.len() as u64, journal));
            let theirs = original_bytes(&script, entries);
            let share = (8 * words) as f64 / theirs as f64;
            println!("| {held} | {entries} | {journal} | {words} | {} | {theirs} | {share:.2} |", 8 * words);
        }
    }
}
