//! What takes the place of cache.rs's JOURNAL_CAPACITY in `original-journal`,
//! and only there: `journal.len() > JOURNAL_CAPACITY` then reads the room set.
use std::cell::Cell;
use std::cmp::Ordering;

thread_local!(static ROOM: Cell<usize> = const { Cell::new(200_000) });

pub(crate) fn set(room: u64) {
    ROOM.set(room as usize);
}

#[derive(Clone, Copy)]
pub struct JournalRoom;

impl PartialEq<JournalRoom> for usize {
    fn eq(&self, _: &JournalRoom) -> bool {
        *self == ROOM.get()
    }
}

impl PartialOrd<JournalRoom> for usize {
    fn partial_cmp(&self, _: &JournalRoom) -> Option<Ordering> {
        self.partial_cmp(&ROOM.get())
    }
}
