//! Histories with the answers beside them, on the guarded library and on the
//! reading of document 01.
use crate::guarded::Library;
use cadraspes::{linked, NOT_LINKED};
use history::Call;
use std::io::Write;
use std::sync::Once;

static TOLD: Once = Once::new();

/// Says in one line, not to be held back with a test's own output, if there is
/// no library to test.
pub fn with_library() -> bool {
    if !linked() {
        TOLD.call_once(|| drop(writeln!(std::io::stderr(), "{NOT_LINKED}")));
    }
    linked()
}

/// Each line is a call, ` => ` and its answer, the entries of a list behind
/// ` | `. The library and the reading must give these answers.
pub fn expect(pairs: &str) {
    if !with_library() {
        return;
    }
    let mut library = Library::default();
    let mut replay = reading::Replay::default();
    for line in pairs.lines().map(str::trim).filter(|line| !line.is_empty()) {
        let (call, answer) = line.split_once(" => ").unwrap_or_else(|| panic!("no answer beside {line}"));
        let answer = answer.replace(" | ", "\n  ");
        let call = Call::read(call).unwrap_or_else(|why| panic!("{line}: {why}"));
        assert_eq!(replay.call(&call).to_string(), answer, "the reading: {call}");
        assert_eq!(library.call(&call).to_string(), answer, "the library: {call}");
    }
}

/// Numbers that follow from a seed alone.
pub struct Rng(pub u64);

impl Rng {
    pub fn next(&mut self) -> u64 {
        self.0 = self.0.wrapping_add(0x9e37_79b9_7f4a_7c15);
        let mixed = (self.0 ^ (self.0 >> 30)).wrapping_mul(0xbf58_476d_1ce4_e5b9);
        let mixed = (mixed ^ (mixed >> 27)).wrapping_mul(0x94d0_49bb_1331_11eb);
        mixed ^ (mixed >> 31)
    }

    pub fn below(&mut self, end: u64) -> u64 {
        self.next() % end
    }

    pub fn pick<T: Copy>(&mut self, list: &[T]) -> T {
        list[self.below(list.len() as u64) as usize]
    }
}
