//! A plain reference of document 01's session program, written from document 01 and docs/DECISIONS.md: vectors, walks, nothing
//! clever. `wrong` switches one slip on (see `wrong.rs`); without it this is what we believe document 01 says.

mod add;
mod cache;
mod lists;

pub use cache::{Cache, Counts, Instance, Sample};

use crate::{
    answer::Answer,
    session::{items, Item, Masks, Record, SetUp},
    wrong::Wrong,
};

/// The session program: before an accepted set-up there is no cache.
#[derive(Debug, Clone, Default)]
pub struct Reference {
    pub cache: Option<Cache>,
    wrong: Option<Wrong>,
}

impl Reference {
    pub fn new(wrong: Option<Wrong>) -> Self {
        Self { cache: None, wrong }
    }

    /// "1 comes first everywhere. [..] Program: 10, then the rest."
    pub fn step(&mut self, record: &Record) -> Answer {
        let one = faulty(record);
        let ten = self.cache.is_some() == matches!(record, Record::SetUp(_));
        if self.wrong == Some(Wrong::TenBeforeOne) && ten {
            return Answer::Refused(10);
        }
        if one {
            return Answer::Refused(1);
        }
        if self.wrong == Some(Wrong::TwoBeforeTen) {
            if let Record::SetUp(s) = record {
                if !in_bounds(s) {
                    return Answer::Refused(2);
                }
            }
        }
        if ten {
            return Answer::Refused(10);
        }
        let Some(cache) = &mut self.cache else {
            return self.set_up(record);
        };
        match record {
            Record::SetUp(_) => Answer::Refused(10),
            Record::Add(a) => cache.add(a),
            Record::NoWriters(instance) => cache.no_writers(*instance),
            Record::Choose(masks) => cache.choose(None, *masks),
            Record::ChooseWithin(instance, masks) => cache.choose(Some(*instance), *masks),
            Record::Read(list) => cache.read_or_take(list, false),
            Record::Take(list) => cache.read_or_take(list, true),
            Record::NextKey(instance) => cache.next_key(*instance),
        }
    }

    fn set_up(&mut self, record: &Record) -> Answer {
        match record {
            Record::SetUp(s) if in_bounds(s) => {
                self.cache = Some(Cache::new(s, self.wrong));
                Answer::Ok
            }
            Record::SetUp(_) => Answer::Refused(2),
            _ => Answer::Refused(10),
        }
    }

    /// Not of document 01: see the cache's.
    pub fn seed_counts(&mut self, name: u64, counts: Counts) {
        if let Some(cache) = &mut self.cache {
            cache.seed_counts(name, counts);
        }
    }

    /// The answers to a session in bytes, one for each record.
    pub fn run(&mut self, bytes: &[u8]) -> Vec<Answer> {
        let all = items(bytes);
        all.iter().map(|item| self.item(item)).collect()
    }

    pub fn item(&mut self, item: &Item) -> Answer {
        match item {
            Item::Record(record) => self.step(record),
            Item::Bad | Item::Stop => Answer::Refused(1),
        }
    }
}

/// "kind not 1 or 2, sequence number out of range, mask beyond 3, 3, 7".
pub fn faulty(record: &Record) -> bool {
    match record {
        Record::Add(a) => {
            let kind = a.kind == 1 || a.kind == 2;
            let sequence = 1 <= a.sequence && a.sequence < 1 << 63;
            !(kind && sequence)
        }
        Record::Choose(masks) | Record::ChooseWithin(_, masks) => beyond(masks),
        _ => false,
    }
}

fn beyond(masks: &Masks) -> bool {
    masks[0] > 3 || masks[1] > 3 || masks[2] > 7
}

/// "Instances i: 1 to 32. In modes 1 and 2: d at least 1 and i*d at most 256." In modes 3 and 4 the keep field is 0.
pub fn in_bounds(s: &SetUp) -> bool {
    let instances = i64::from(s.instances);
    let keep = i64::from(s.keep);
    let by_mode = match s.mode {
        1 | 2 => keep >= 1 && instances * keep <= 256,
        3 | 4 => keep == 0,
        _ => false,
    };
    by_mode && (1..=32).contains(&instances)
}
