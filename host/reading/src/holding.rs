//! Document 01, "Holding blocks", with the refusals of its calls in their
//! order.
use crate::{read_amount, Done, Record, Refusal};
use history::{Amount, Block, Hash, Marks};
use std::collections::{BTreeMap, BTreeSet, VecDeque};

/// A block's header without its hash. Two texts with one value, or two
/// unreadable ones, make the same header.
#[derive(Clone, Copy, Debug, PartialEq)]
pub struct Header {
    pub index: u64,
    pub epoch: u64,
    pub prev: Hash,
    pub target: Amount,
    pub actual: Amount,
}

impl Header {
    pub fn of(block: &Block<String>) -> Header {
        let (target, actual) = (read_amount(&block.target), read_amount(&block.actual));
        Header { index: block.index, epoch: block.epoch, prev: block.prev, target, actual }
    }
}

/// The room of a hash: it keeps the header and the eligibility answer, and the
/// copies of the three stores.
#[derive(Clone, Debug)]
pub struct Room {
    pub place: u64,
    pub header: Header,
    pub answer: Option<u8>,
    pub copies: [Option<Marks>; 3],
}

impl Room {
    /// The active copy, else forks, else canon.
    fn effective(&self) -> Option<Marks> {
        self.copies.into_iter().flatten().next()
    }
}

/// The three stores, the rooms and the journal.
#[derive(Clone, Debug)]
pub struct Holding {
    pub hash_room: u64,
    pub journal_room: u64,
    pub generation: u64,
    pub version: u64,
    /// The version that the last start or reload named.
    pub first_version: u64,
    pub rooms: BTreeMap<Hash, Room>,
    /// The places that no room has.
    free: BTreeSet<u64>,
    /// Version and hash of each touch, the newest last.
    journal: VecDeque<(u64, Hash)>,
    /// Loads are taken.
    pub loading: bool,
    /// A sync came since the last accepted start, reload, load, put or
    /// effective removal.
    pub fresh: bool,
}

impl Holding {
    pub fn start(hash_room: u64, journal_room: u64, generation: u64, version: u64) -> Done<Holding> {
        if !(1..=32_768).contains(&hash_room) || !(1..=200_000).contains(&journal_room) {
            return Err(Refusal::Room);
        }
        Ok(Holding {
            hash_room,
            journal_room,
            generation,
            version,
            first_version: version,
            rooms: BTreeMap::new(),
            free: (0..hash_room).collect(),
            journal: VecDeque::new(),
            loading: true,
            fresh: false,
        })
    }

    pub fn reload(&mut self, generation: u64, version: u64) -> Done {
        if generation <= self.generation {
            return Err(Refusal::Generation);
        }
        *self = Holding::start(self.hash_room, self.journal_room, generation, version)?;
        Ok(())
    }

    pub fn load(&mut self, store: u8, block: &Block<String>) -> Done {
        if !self.loading {
            return Err(Refusal::Loaded);
        }
        self.fits(store, block)?;
        self.keep(store, block);
        Ok(())
    }

    pub fn put(&mut self, store: u8, block: &Block<String>) -> Done {
        self.fits(store, block)?;
        self.touch_is_due()?;
        self.keep(store, block);
        self.touch(block.hash);
        Ok(())
    }

    pub fn remove(&mut self, store: u8, hash: Hash) -> Done {
        kind(store)?;
        let held = |room: &Room| room.copies[store as usize].is_some();
        if !self.rooms.get(&hash).is_some_and(held) {
            return Ok(());
        }
        self.touch_is_due()?;
        self.rooms.entry(hash).and_modify(|room| room.copies[store as usize] = None);
        self.touch(hash);
        Ok(())
    }

    pub fn answer(&mut self, hash: Hash, value: u64) -> Done {
        let value = u8::try_from(value).ok().filter(|value| *value <= 2).ok_or(Refusal::Value)?;
        let room = self.rooms.get_mut(&hash).ok_or(Refusal::Unknown)?;
        if matches!(room.answer, Some(held @ (0 | 2)) if held != value) {
            return Err(Refusal::Final);
        }
        room.answer = Some(value);
        Ok(())
    }

    /// The refusals 2 to 5 of a record that is to be held.
    fn fits(&self, store: u8, block: &Block<String>) -> Done {
        kind(store)?;
        if block.index == u64::MAX {
            return Err(Refusal::Index);
        }
        match self.rooms.get(&block.hash) {
            Some(room) if room.header != Header::of(block) => Err(Refusal::Header),
            None if self.rooms.len() as u64 == self.hash_room => Err(Refusal::Full),
            _ => Ok(()),
        }
    }

    fn touch_is_due(&self) -> Done {
        if self.version == u64::MAX {
            return Err(Refusal::Version);
        }
        Ok(())
    }

    /// Puts a copy into its store; new room takes the lowest free place.
    fn keep(&mut self, store: u8, block: &Block<String>) {
        let free = &mut self.free;
        let new = || {
            let place = free.pop_first().expect("5 FULL was not due");
            Room { place, header: Header::of(block), answer: None, copies: [None; 3] }
        };
        self.rooms.entry(block.hash).or_insert_with(new).copies[store as usize] = Some(block.marks);
        self.fresh = false;
    }

    fn touch(&mut self, hash: Hash) {
        self.version += 1;
        self.journal.push_back((self.version, hash));
        if self.journal.len() as u64 > self.journal_room {
            self.journal.pop_front();
        }
        (self.loading, self.fresh) = (false, false);
    }

    /// What a sync does here at its end.
    pub fn synced(&mut self) {
        self.free.extend(self.rooms.values().filter(|room| room.effective().is_none()).map(|room| room.place));
        self.rooms.retain(|_, room| room.effective().is_some());
        (self.loading, self.fresh) = (false, true);
    }

    /// The answer that a hash's room keeps; none counts as 1.
    pub fn answer_of(&self, hash: Hash) -> u8 {
        self.rooms.get(&hash).and_then(|room| room.answer).unwrap_or(1)
    }

    pub fn effective(&self, hash: Hash) -> Option<Record> {
        let room = self.rooms.get(&hash)?;
        let Header { index, epoch, prev, target, actual } = room.header;
        Some(Block { hash, index, epoch, prev, target, actual, marks: room.effective()? })
    }

    pub fn effective_count(&self) -> u64 {
        self.rooms.values().filter(|room| room.effective().is_some()).count() as u64
    }

    /// The blocks that are effective and not orphaned.
    pub fn live(&self) -> BTreeMap<Hash, Record> {
        let effective = self.rooms.keys().filter_map(|hash| self.effective(*hash));
        effective.filter(|block| !block.marks.orphaned).map(|block| (block.hash, block)).collect()
    }

    /// The distinct hashes touched after a version, in the order of their last
    /// touch; none if they are not to be had.
    pub fn changes_since(&self, generation: u64, version: u64) -> Option<Vec<Hash>> {
        if generation != self.generation || version > self.version {
            return None;
        }
        if version == self.version {
            return Some(Vec::new());
        }
        if self.journal.front()?.0 > version + 1 {
            return None;
        }
        let later: Vec<Hash> = self.journal.iter().filter(|entry| entry.0 > version).map(|entry| entry.1).collect();
        let mut seen = BTreeSet::new();
        let mut changes: Vec<Hash> = later.into_iter().rev().filter(|hash| seen.insert(*hash)).collect();
        changes.reverse();
        Some(changes)
    }
}

fn kind(store: u8) -> Done {
    if store > 2 {
        return Err(Refusal::Kind);
    }
    Ok(())
}
