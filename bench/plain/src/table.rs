//! The tables: names of instances, instances, free slots, samples.

use crate::{ALIVE, DISPOSED, INSTANCES, NO_WRITERS};

/// Names in order, each with its place in the table of instances, which goes by arrival.
#[derive(Default)]
pub struct Names {
    len: usize,
    sorted: [u64; INSTANCES],
    place: [u8; INSTANCES],
}

impl Names {
    pub fn len(&self) -> usize {
        self.len
    }

    pub fn find(&self, name: u64) -> Option<usize> {
        let found = self.sorted[..self.len].binary_search(&name).ok()?;
        Some(self.place[found].into())
    }

    /// The name must be new and the table not full.
    pub fn insert(&mut self, name: u64) -> usize {
        let at = self.sorted[..self.len].partition_point(|n| *n < name);
        self.sorted.copy_within(at..self.len, at + 1);
        self.place.copy_within(at..self.len, at + 1);
        self.sorted[at] = name;
        self.place[at] = self.len as u8;
        self.len += 1;
        self.len - 1
    }

    pub fn above(&self, name: u64) -> Option<u64> {
        let at = self.sorted[..self.len].partition_point(|n| *n <= name);
        self.sorted[..self.len].get(at).copied()
    }
}

#[derive(Clone, Copy, Default)]
pub struct Instance {
    pub name: u64,
    /// The ring's oldest cell: the next to be used.
    pub turn: usize,
    pub disposed: i32,
    pub no_writers: i32,
    pub accessed: i32,
    pub state: u8,
}

impl Instance {
    pub fn total(&self) -> i32 {
        self.disposed + self.no_writers
    }

    /// A rebirth would pass the greatest total.
    pub fn at_limit(&self) -> bool {
        self.state != ALIVE && self.total() == i32::MAX
    }

    pub fn step(&mut self, kind: u8) {
        if kind == 1 {
            match self.state {
                DISPOSED => self.disposed += 1,
                NO_WRITERS => self.no_writers += 1,
                _ => (),
            }
            self.state = ALIVE;
        } else {
            self.state = DISPOSED;
        }
    }
}

#[derive(Clone, Copy, Default)]
pub struct Sample {
    pub key: u64,
    pub sequence: u64,
    pub writer: [u8; 16],
    pub handle: u32,
    pub disposed: i32,
    pub no_writers: i32,
    pub instance: u8,
    pub kind: u8,
    pub read: bool,
}

impl Sample {
    pub fn total(&self) -> i32 {
        self.disposed + self.no_writers
    }
}

/// Free slots, a bit each.
#[derive(Clone, Copy)]
pub struct Free([u64; 4]);

impl Free {
    pub fn all() -> Self {
        Self([u64::MAX; 4])
    }

    pub fn is_empty(&self) -> bool {
        self.0 == [0; 4]
    }

    pub fn has(&self, slot: u16) -> bool {
        self.0[usize::from(slot / 64)] >> (slot % 64) & 1 == 1
    }

    /// There must be one.
    pub fn take_lowest(&mut self) -> u16 {
        for (word, base) in self.0.iter_mut().zip([0, 64, 128, 192]) {
            if *word != 0 {
                let slot = base + word.trailing_zeros() as u16;
                *word &= *word - 1;
                return slot;
            }
        }
        unreachable!("room was made")
    }

    /// Whether it was there.
    pub fn remove(&mut self, slot: u16) -> bool {
        let had = self.has(slot);
        self.0[usize::from(slot / 64)] &= !(1 << (slot % 64));
        had
    }

    pub fn give_back(&mut self, slot: u16) {
        self.0[usize::from(slot / 64)] |= 1 << (slot % 64);
    }
}
