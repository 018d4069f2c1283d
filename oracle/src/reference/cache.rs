//! The cache's state: every accepted sample is kept, and what is live is read off by document 01's sentence.

use crate::{answer::Answer, session::SetUp, wrong::Wrong};

pub const ALIVE: u8 = 1;
pub const DISPOSED: u8 = 2;
pub const NO_WRITERS: u8 = 4;

#[derive(Debug, Clone, Copy, Default, PartialEq, Eq)]
pub struct Counts {
    pub disposed: i32,
    pub no_writers: i32,
}

impl Counts {
    pub fn total(self) -> i64 {
        i64::from(self.disposed) + i64::from(self.no_writers)
    }
}

#[derive(Debug, Clone)]
pub struct Sample {
    pub key: u64,
    pub time: u64,
    pub writer: [u8; 16],
    pub sequence: u64,
    pub kind: u8,
    pub handle: u32,
    pub counts: Counts,
    pub read: bool,
    pub taken: bool,
    pub slot: u16,
}

#[derive(Debug, Clone)]
pub struct Instance {
    pub name: u64,
    pub state: u8,
    pub counts: Counts,
    pub accessed: i64,
    /// All of them, in the order of their adds, taken ones too.
    pub accepted: Vec<Sample>,
}

#[derive(Debug, Clone)]
pub struct Cache {
    pub keep: Option<usize>,
    pub limit: usize,
    pub last_key: Option<u64>,
    /// In the order of their first samples. "Instances are never removed."
    pub instances: Vec<Instance>,
    pub wrong: Option<Wrong>,
}

impl Cache {
    pub fn new(s: &SetUp, wrong: Option<Wrong>) -> Self {
        let mut keep = match s.mode {
            1 | 2 => Some(s.keep as usize),
            3 => None,
            _ => Some(1),
        };
        if wrong == Some(Wrong::KeepOneMore) {
            keep = keep.map(|d| d + 1);
        }
        if wrong == Some(Wrong::KeepAllIgnoresLimit) && s.mode == 2 {
            keep = None;
        }
        Self {
            keep,
            limit: s.instances.into(),
            last_key: None,
            instances: Vec::new(),
            wrong,
        }
    }

    pub fn is(&self, wrong: Wrong) -> bool {
        self.wrong == Some(wrong)
    }

    pub fn place_of(&self, name: u64) -> Option<usize> {
        self.instances.iter().position(|i| i.name == name)
    }

    /// The places, in `accepted`, of the samples that still have a place: "the last d accepted of its instance (mode 3: any)".
    fn placed(&self, instance: &Instance) -> Vec<usize> {
        let all = 0..instance.accepted.len();
        let Some(d) = self.keep else {
            return all.collect();
        };
        let mut order: Vec<usize> = all.collect();
        if self.is(Wrong::CountOnlyUntaken) {
            order.retain(|s| !instance.accepted[*s].taken);
        }
        if self.is(Wrong::KeepByRawTime) {
            order.sort_by_key(|s| instance.accepted[*s].time);
        }
        order.split_off(order.len().saturating_sub(d))
    }

    /// "A sample is live while it is among the last d accepted of its instance and not taken."
    pub fn live_in<'a>(&self, instance: &'a Instance) -> Vec<&'a Sample> {
        let placed = self.placed(instance);
        let samples = placed.into_iter().map(|s| &instance.accepted[s]);
        samples.filter(|s| !s.taken).collect()
    }

    pub fn live(&self) -> Vec<(&Instance, &Sample)> {
        let each = self.instances.iter();
        each.flat_map(|i| self.live_in(i).into_iter().map(move |s| (i, s)))
            .collect()
    }

    /// The place of a live sample: its instance's and its own.
    pub fn find(&self, key: u64, name: u64) -> Option<(usize, usize)> {
        for (at, instance) in self.instances.iter().enumerate() {
            let fits = instance.name == name || self.is(Wrong::PairByKeyAlone);
            if fits && self.live_in(instance).iter().any(|s| s.key == key) {
                let found = instance
                    .accepted
                    .iter()
                    .position(|s| s.key == key && !s.taken);
                return found.map(|s| (at, s));
            }
        }
        None
    }

    pub fn no_writers(&mut self, name: u64) -> Answer {
        let Some(at) = self.place_of(name) else {
            return Answer::Refused(3);
        };
        let turns_all = self.is(Wrong::NoWritersTurnsDisposed);
        let instance = &mut self.instances[at];
        if instance.state == ALIVE || turns_all {
            instance.state = NO_WRITERS;
        }
        Answer::Ok
    }

    /// "the smallest held instance key above the given one, held or not"
    pub fn next_key(&self, name: u64) -> Answer {
        let from_equal = self.is(Wrong::NextFromEqual);
        let only_live = self.is(Wrong::NextOnlyWithLive);
        let above = self.instances.iter().filter(|i| {
            let high = i.name > name || (from_equal && i.name == name);
            high && !(only_live && self.live_in(i).is_empty())
        });
        Answer::Next(above.map(|i| i.name).min())
    }

    /// Not of document 01: counts near their limit, which no run reaches by rebirths.
    pub fn seed_counts(&mut self, name: u64, counts: Counts) {
        if let Some(at) = self.place_of(name) {
            self.instances[at].counts = counts;
        }
    }
}
