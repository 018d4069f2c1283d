//! Adding: key, lifecycle, snapshot, keeping, slot.

use super::cache::{Cache, Counts, Instance, Sample, ALIVE, DISPOSED, NO_WRITERS};
use crate::{answer::Answer, session::Add, wrong::Wrong};

const SLOTS: usize = 256;
/// Stands in a new sample until its slot is found.
const NOT_YET: u16 = 256;
const GREATEST_TOTAL: i64 = 2_147_483_647;

impl Cache {
    pub fn add(&mut self, a: &Add) -> Answer {
        if let Some(number) = self.refuse_add(a) {
            if number == 4 && self.is(Wrong::RefusedAddTakesKey) {
                self.last_key = Some(self.key_for(a.time));
            }
            return Answer::Refused(number);
        }
        let key = self.key_for(a.time);
        let slot_before = self.free_slot();
        let at = self.place_or_new(a);
        let before = self.instances[at].counts;
        let step = lifecycle(self.instances[at].state, a.kind, self.wrong);
        let instance = &mut self.instances[at];
        instance.state = step.state;
        // Refusal 7 keeps the sum within bounds; only a wrong variant gets to the stop.
        instance.counts.disposed = instance.counts.disposed.saturating_add(step.disposed);
        instance.counts.no_writers = instance.counts.no_writers.saturating_add(step.no_writers);
        let counts = match self.wrong {
            Some(Wrong::SnapshotBeforeStep) => before,
            _ => instance.counts,
        };
        let evicted = self.push(at, sample(a, key, counts));
        // Room is made by the push, so the slot comes after it.
        let slot = match self.wrong {
            Some(Wrong::SlotBeforeRoom) => slot_before,
            _ => self.free_slot(),
        };
        if let Some(new) = self.instances[at].accepted.last_mut() {
            new.slot = slot;
        }
        self.last_key = Some(key);
        Answer::Added {
            key,
            slot: Some(slot),
            evicted,
        }
    }

    /// "Then, for an add: 6, 4 or 7, 5."
    fn refuse_add(&self, a: &Add) -> Option<u8> {
        let held = self.place_of(a.instance);
        let fresh_six = self.is(Wrong::SixOnFreshCache) && self.last_key.is_none();
        let six = self.last_key == Some(u64::MAX) || (fresh_six && a.time == u64::MAX);
        let four = held.is_none() && self.instances.len() == self.limit;
        let seven = held.is_some_and(|at| {
            let i = &self.instances[at];
            let dispose_too = self.is(Wrong::RefuseDisposeAtLimit);
            i.state != ALIVE && (a.kind == 1 || dispose_too) && i.counts.total() == GREATEST_TOTAL
        });
        let five = self.keep.is_none() && self.live().len() == SLOTS;
        let mut order = vec![(six, 6), (four, 4), (seven, 7), (five, 5)];
        if self.is(Wrong::FourBeforeSix) {
            order.swap(0, 1);
        }
        if self.is(Wrong::FiveBeforeFour) {
            order.swap(1, 3);
        }
        order.into_iter().find(|(given, _)| *given).map(|(_, n)| n)
    }

    /// "The first sample's key is its time. Later, the time if it is greater than the last key issued, otherwise last key plus 1."
    fn key_for(&self, time: u64) -> u64 {
        let mut last = self.last_key;
        if self.is(Wrong::LastKeyOfLive) {
            last = self.live().iter().map(|(_, s)| s.key).max();
        }
        let step = if self.is(Wrong::RepairByTwo) { 2 } else { 1 };
        match last {
            None => time,
            Some(last) if time > last => time,
            Some(last) if time == last && self.is(Wrong::EqualTimeStays) => time,
            Some(last) => last.saturating_add(step),
        }
    }

    fn place_or_new(&mut self, a: &Add) -> usize {
        if let Some(at) = self.place_of(a.instance) {
            return at;
        }
        let accessed = if self.is(Wrong::AccessedStartsAtZero) {
            0
        } else {
            -2
        };
        self.instances.push(Instance {
            name: a.instance,
            state: state_of(a.kind),
            counts: Counts::default(),
            accessed,
            accepted: Vec::new(),
        });
        self.instances.len() - 1
    }

    /// The handle of the live sample that the new one pushes out, if any.
    fn push(&mut self, at: usize, new: Sample) -> Option<u32> {
        let key = new.key;
        let name_taken = self.is(Wrong::EvictedThoughTaken);
        let pushed_taken = self.keep.and_then(|d| {
            let all = &self.instances[at].accepted;
            let oldest = all.len().checked_sub(d)?;
            Some(all[oldest].handle)
        });
        let live = self.live_in(&self.instances[at]);
        let before: Vec<(u64, u32)> = live.iter().map(|s| (s.key, s.handle)).collect();
        self.instances[at].accepted.push(new);
        let after = self.live_in(&self.instances[at]);
        let gone = before
            .iter()
            .find(|(k, _)| *k != key && after.iter().all(|s| s.key != *k));
        let evicted = gone.map(|(_, handle)| *handle);
        if name_taken {
            return evicted.or(pushed_taken);
        }
        evicted
    }

    /// "the lowest free slot": the lowest that no live sample has.
    fn free_slot(&self) -> u16 {
        let used: Vec<u16> = self.live().iter().map(|(_, s)| s.slot).collect();
        let mut slots: Vec<u16> = (0..NOT_YET).collect();
        if self.is(Wrong::HighestSlot) {
            slots.reverse();
        }
        let free = slots.into_iter().find(|s| !used.contains(s));
        free.unwrap_or(NOT_YET)
    }
}

fn sample(a: &Add, key: u64, counts: Counts) -> Sample {
    Sample {
        key,
        time: a.time,
        writer: a.writer,
        sequence: a.sequence,
        kind: a.kind,
        handle: a.handle,
        counts,
        read: false,
        taken: false,
        slot: NOT_YET,
    }
}

/// "A value makes Alive, a dispose NotAliveDisposed."
fn state_of(kind: u8) -> u8 {
    if kind == 1 {
        ALIVE
    } else {
        DISPOSED
    }
}

struct Step {
    state: u8,
    disposed: i32,
    no_writers: i32,
}

/// "NotAliveDisposed to Alive, disposed count plus 1; NotAliveNoWriters to Alive, no-writers count plus 1; all else unchanged."
fn lifecycle(old: u8, kind: u8, wrong: Option<Wrong>) -> Step {
    let new = state_of(kind);
    let mut step = Step {
        state: new,
        disposed: i32::from(old == DISPOSED && new == ALIVE),
        no_writers: i32::from(old == NO_WRITERS && new == ALIVE),
    };
    match wrong {
        Some(Wrong::DisposeTwiceCounts) if old == DISPOSED => step.disposed = 1,
        Some(Wrong::NoWritersCountsDisposed) => {
            step.disposed += step.no_writers;
            step.no_writers = 0;
        }
        Some(Wrong::DisposeKeepsNoWriters) if old == NO_WRITERS && new == DISPOSED => {
            step.state = NO_WRITERS
        }
        _ => (),
    }
    step
}
