//! Document 01's sample cache as one would write it in plain Rust: `&mut self`, fixed arrays, no allocation. It is the yardstick for
//! speed; nothing is proved of it, but it runs in the comparison like any other program (see `plain_session` in the oracle).

mod choose;
mod lists;
mod table;

pub use choose::Masks;
use load::{Add, Added, Place};
use table::{Free, Instance, Names, Sample};

pub const SLOTS: usize = 256;
pub const INSTANCES: usize = 32;

/// Stands in a ring cell without a live sample.
const NONE: u16 = SLOTS as u16;

const ALIVE: u8 = 1;
const DISPOSED: u8 = 2;
const NO_WRITERS: u8 = 4;

/// A refusal, by document 01's number.
pub type Refused = u8;

pub struct Cache {
    /// 0 for no keep count (mode 3).
    depth: usize,
    limit: usize,
    last_key: Option<u64>,
    /// Where the last accepted sample went, while it is live: it is then the latest of all.
    latest: Option<u16>,
    names: Names,
    instances: [Instance; INSTANCES],
    /// The ring of instance i: cells i * depth .. (i + 1) * depth, with the slot, and beside it the key to search by.
    cells: [u16; SLOTS],
    cell_keys: [u64; SLOTS],
    free: Free,
    samples: [Sample; SLOTS],
}

impl Cache {
    pub fn new(mode: u8, keep: i32, instances: u16) -> Result<Self, Refused> {
        let fits = match mode {
            1 | 2 => keep >= 1 && i64::from(keep) * i64::from(instances) <= SLOTS as i64,
            3 | 4 => keep == 0,
            _ => false,
        };
        if !fits || instances == 0 || usize::from(instances) > INSTANCES {
            return Err(2);
        }
        Ok(Self {
            depth: match mode {
                1 | 2 => keep as usize,
                3 => 0,
                _ => 1,
            },
            limit: instances.into(),
            last_key: None,
            latest: None,
            names: Names::default(),
            instances: [Instance::default(); INSTANCES],
            cells: [NONE; SLOTS],
            cell_keys: [0; SLOTS],
            free: Free::all(),
            samples: [Sample::default(); SLOTS],
        })
    }

    pub fn add(&mut self, a: &Add) -> Result<Added, Refused> {
        if !(a.kind == 1 || a.kind == 2) || a.sequence == 0 || a.sequence >> 63 != 0 {
            return Err(1);
        }
        let key = self.key_for(a.time)?;
        let found = self.names.find(a.instance);
        match found {
            None if self.names.len() == self.limit => return Err(4),
            Some(at) if self.instances[at].at_limit() && a.kind == 1 => return Err(7),
            _ => (),
        }
        if self.depth == 0 && self.free.is_empty() {
            return Err(5);
        }
        let at = found.unwrap_or_else(|| self.new_instance(a));
        self.instances[at].step(a.kind);
        let evicted = self.make_room(at);
        let slot = self.free.take_lowest();
        self.place(at, slot, key);
        self.samples[usize::from(slot)] = Sample {
            key,
            sequence: a.sequence,
            writer: a.writer,
            handle: a.handle,
            disposed: self.instances[at].disposed,
            no_writers: self.instances[at].no_writers,
            instance: at as u8,
            kind: a.kind,
            read: false,
        };
        self.last_key = Some(key);
        self.latest = Some(slot);
        Ok(Added {
            key,
            place: Some(Place { slot, evicted }),
        })
    }

    fn key_for(&self, time: u64) -> Result<u64, Refused> {
        match self.last_key {
            None => Ok(time),
            Some(last) if time > last => Ok(time),
            // No time is later than the greatest key, so that one ends here.
            Some(last) => last.checked_add(1).ok_or(6),
        }
    }

    fn new_instance(&mut self, a: &Add) -> usize {
        let at = self.names.insert(a.instance);
        self.instances[at] = Instance {
            name: a.instance,
            state: if a.kind == 1 { ALIVE } else { DISPOSED },
            accessed: -2,
            ..Instance::default()
        };
        at
    }

    /// Frees the slot of the oldest place of the ring, if a live sample has it.
    fn make_room(&mut self, at: usize) -> Option<u32> {
        if self.depth == 0 {
            return None;
        }
        let slot = self.cells[at * self.depth + self.instances[at].turn];
        if slot == NONE {
            return None;
        }
        self.free.give_back(slot);
        Some(self.samples[usize::from(slot)].handle)
    }

    fn place(&mut self, at: usize, slot: u16, key: u64) {
        if self.depth == 0 {
            return;
        }
        let turn = self.instances[at].turn;
        let cell = at * self.depth + turn;
        self.cells[cell] = slot;
        self.cell_keys[cell] = key;
        self.instances[at].turn = if turn + 1 == self.depth { 0 } else { turn + 1 };
    }

    pub fn no_writers(&mut self, name: u64) -> Result<(), Refused> {
        let at = self.names.find(name).ok_or(3u8)?;
        let instance = &mut self.instances[at];
        if instance.state == ALIVE {
            instance.state = NO_WRITERS;
        }
        Ok(())
    }

    pub fn next_key(&self, name: u64) -> Option<u64> {
        self.names.above(name)
    }
}
