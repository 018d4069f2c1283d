//! docs/src as judge: a session's records go to the crate's `DataSampleCache`, and its results come back as answers.

use std::panic::{catch_unwind, AssertUnwindSafe};

use rustdds::{
    dds::{
        key::Keyed,
        qos::QosPolicies,
        readcondition::ReadCondition,
        sampleinfo::{InstanceState, NotAliveGenerationCounts, SampleInfo},
        with_key::{
            datasample::{DeserializedCacheChange, Sample},
            datasample_cache::DataSampleCache,
            datawriter::WriteOptions,
        },
    },
    structure::{sequence_number::SequenceNumber, time::Timestamp},
    GUID,
};

use crate::{
    answer::{Answer, Info},
    reference::{faulty, in_bounds, Counts},
    session::{Add, Masks, Pair, Record, SetUp},
};

/// A value as the host would write it: its instance, and a handle for its payload.
pub struct Reading {
    instance: u64,
    handle: u32,
}

impl Keyed for Reading {
    type K = u64;
    fn key(&self) -> u64 {
        self.instance
    }
}

/// Why a record leaves the common ground.
#[derive(Debug, Clone, Copy, PartialEq, Eq)]
pub enum Outside {
    Refusal,
    NoWriters,
    /// "each add's time is later than every key issued so far, or the last key issued is still live" does not hold.
    LateAdd,
}

impl Outside {
    pub fn text(self) -> &'static str {
        match self {
            Outside::Refusal => "a refusal",
            Outside::NoWriters => "a no-writers event",
            Outside::LateAdd => {
                "an add not later than every key issued, with the last key issued not live"
            }
        }
    }
}

#[derive(Default)]
pub struct Judge {
    cache: Option<DataSampleCache<Reading>>,
    limit: usize,
    no_keep_count: bool,
    last_issued: Option<u64>,
}

impl Judge {
    /// Whether the record leaves the common ground, judged by what the crate holds before it.
    pub fn outside(&self, record: &Record) -> Option<Outside> {
        let set_up = matches!(record, Record::SetUp(_));
        if faulty(record) || self.cache.is_some() == set_up {
            return Some(Outside::Refusal);
        }
        match record {
            Record::SetUp(s) => (!in_bounds(s)).then_some(Outside::Refusal),
            Record::Add(a) => self.add_outside(a),
            Record::NoWriters(name) => Some(self.event_outside(*name)),
            Record::Read(list) | Record::Take(list) => {
                (!self.all_live(list)).then_some(Outside::Refusal)
            }
            _ => None,
        }
    }

    fn add_outside(&self, a: &Add) -> Option<Outside> {
        let cache = self.cache.as_ref()?;
        let known = cache.hook_instance(&a.instance);
        let six = self.last_issued == Some(u64::MAX);
        let four = known.is_none() && cache.hook_instance_count() == self.limit;
        let seven = known.is_some_and(|(state, counts)| {
            let rebirth = state != InstanceState::Alive && a.kind == 1;
            rebirth && counts.total() == i32::MAX
        });
        let five = self.no_keep_count && cache.hook_live_count() == 256;
        if six || four || seven || five {
            return Some(Outside::Refusal);
        }
        let last = self.last_issued?;
        let live = cache.hook_live_under(Timestamp::from_ticks(last)).is_some();
        (a.time <= last && !live).then_some(Outside::LateAdd)
    }

    /// An event for an unknown instance is a refusal (3) first of all.
    fn event_outside(&self, name: u64) -> Outside {
        let known = self.cache.as_ref().and_then(|c| c.hook_instance(&name));
        known.map_or(Outside::Refusal, |_| Outside::NoWriters)
    }

    fn all_live(&self, list: &[Pair]) -> bool {
        let Some(cache) = &self.cache else {
            return false;
        };
        let mut pairs = list.iter().enumerate();
        pairs.all(|(n, (key, name))| {
            let live = cache.hook_live_under(Timestamp::from_ticks(*key)) == Some(*name);
            live && !list[..n].contains(&(*key, *name))
        })
    }

    /// What the crate does with the record. On the common ground this is an answer of document 01.
    pub fn step(&mut self, record: &Record) -> Answer {
        if let Record::SetUp(s) = record {
            self.set_up(s);
            return Answer::Ok;
        }
        let Some(cache) = &mut self.cache else {
            return Answer::Astray("no cache".to_string());
        };
        match record {
            Record::SetUp(_) => Answer::Ok,
            Record::Add(a) => self.add(a),
            Record::NoWriters(name) => {
                // The event is document 01's own, and so is its refusal.
                if cache.hook_instance(name).is_none() {
                    return Answer::Refused(3);
                }
                cache.hook_no_writers(name);
                Answer::Ok
            }
            Record::Choose(m) => selected(cache.select_keys_for_access(condition(m))),
            Record::ChooseWithin(name, m) => {
                selected(cache.select_instance_keys_for_access(name, condition(m)))
            }
            Record::Read(list) => {
                let got = cache.hook_read(&keys(list));
                samples(got.iter().map(|d| (&d.sample_info, handle_of(&d.value))))
            }
            Record::Take(list) => {
                let got = cache.hook_take(&keys(list));
                let shown: Vec<_> = got
                    .into_iter()
                    .map(|d| (d.sample_info, owned(&d.value)))
                    .collect();
                samples(shown.iter().map(|(info, kind)| (info, *kind)))
            }
            Record::NextKey(name) => Answer::Next(cache.hook_next_key(name)),
        }
    }

    /// The same, for use outside the ground: a panic of the crate becomes an answer.
    pub fn step_anyway(&mut self, record: &Record) -> Answer {
        let tried = catch_unwind(AssertUnwindSafe(|| self.step(record)));
        tried.unwrap_or_else(|_| Answer::Astray("the Rust panicked".to_string()))
    }

    pub fn seed_counts(&mut self, name: u64, counts: Counts) {
        if let Some(cache) = &mut self.cache {
            let counts = NotAliveGenerationCounts {
                disposed_generation_count: counts.disposed,
                no_writers_generation_count: counts.no_writers,
            };
            cache.hook_seed_counts(&name, counts);
        }
    }

    fn set_up(&mut self, s: &SetUp) {
        *self = Self {
            cache: Some(DataSampleCache::new(QosPolicies::of_mode(s.mode, s.keep))),
            limit: s.instances.into(),
            no_keep_count: s.mode == 3,
            last_issued: None,
        };
    }

    /// The crate's add answers nothing: the key is that of the sample that came, the evicted one is that which went.
    fn add(&mut self, a: &Add) -> Answer {
        let before = self.live();
        if let Some(cache) = &mut self.cache {
            cache.hook_add(change(a));
        }
        let after = self.live();
        // Both go up by key, so a sample is found by halving.
        let came: Vec<_> = after
            .iter()
            .filter(|s| before.binary_search(s).is_err())
            .collect();
        let went: Vec<_> = before
            .iter()
            .filter(|s| after.binary_search(s).is_err())
            .collect();
        match (came.as_slice(), went.as_slice()) {
            ([(key, _, _)], [] | [_]) => {
                self.last_issued = Some(*key);
                Answer::Added {
                    key: *key,
                    slot: None,
                    evicted: went.first().map(|(_, _, handle)| *handle),
                }
            }
            _ => Answer::Astray(format!(
                "the add made {came:?} live and {went:?} not (key, instance, handle)"
            )),
        }
    }

    fn live(&self) -> Vec<(u64, u64, u32)> {
        let Some(cache) = &self.cache else {
            return Vec::new();
        };
        let each = cache.hook_live().into_iter();
        each.map(|s| (s.key.to_ticks(), s.instance, ticks(s.source)))
            .collect()
    }
}

fn change(a: &Add) -> DeserializedCacheChange<Reading> {
    let value = Reading {
        instance: a.instance,
        handle: a.handle,
    };
    DeserializedCacheChange {
        receive_instant: Timestamp::from_ticks(a.time),
        writer_guid: GUID(a.writer),
        sequence_number: SequenceNumber::from(a.sequence as i64),
        write_options: WriteOptions::at(Timestamp::from_ticks(a.handle.into())),
        sample: if a.kind == 1 {
            Sample::Value(value)
        } else {
            Sample::Dispose(a.instance)
        },
    }
}

fn ticks(source: Option<Timestamp>) -> u32 {
    source.map_or(0, |t| t.to_ticks() as u32)
}

fn condition(m: &Masks) -> ReadCondition {
    ReadCondition::of_masks(m[0], m[1], m[2])
}

fn keys(list: &[Pair]) -> Vec<(Timestamp, u64)> {
    let each = list.iter();
    each.map(|(key, name)| (Timestamp::from_ticks(*key), *name))
        .collect()
}

fn selected(found: Vec<(Timestamp, u64)>) -> Answer {
    let each = found.into_iter();
    Answer::Selected(each.map(|(ts, name)| (ts.to_ticks(), name)).collect())
}

/// A value's handle; a dispose has none of its own.
fn handle_of(value: &Sample<&Reading, u64>) -> Option<u32> {
    match value {
        Sample::Value(reading) => Some(reading.handle),
        Sample::Dispose(_) => None,
    }
}

fn owned(value: &Sample<Reading, u64>) -> Option<u32> {
    match value {
        Sample::Value(reading) => Some(reading.handle),
        Sample::Dispose(_) => None,
    }
}

fn samples<'a>(got: impl Iterator<Item = (&'a SampleInfo, Option<u32>)>) -> Answer {
    let mut infos = Vec::new();
    for (info, handle) in got {
        let sent = ticks(info.source_timestamp());
        if handle.is_some_and(|h| h != sent) {
            return Answer::Astray(format!("handle {handle:?} came with the info of {sent}"));
        }
        infos.push(Info {
            handle: sent,
            kind: if handle.is_some() { 1 } else { 2 },
            sample_state: info.sample_state() as u8,
            view_state: info.view_state() as u8,
            instance_state: info.instance_state() as u8,
            disposed_count: info.disposed_generation_count(),
            no_writers_count: info.no_writers_generation_count(),
            sample_rank: info.sample_rank().into(),
            generation_rank: info.generation_rank().into(),
            absolute_generation_rank: info.absolute_generation_rank().into(),
            writer: info.writer_guid().0,
            sequence: i64::from(info.sample_identity().sequence_number) as u64,
        });
    }
    Answer::Samples(infos)
}
