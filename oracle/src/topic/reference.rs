//! A plain reference of document 01's topic cache: a vector in key order.

use super::{refused, wrong::Wrong, Call, Entry, Keep, Limits, Reply, PLACES};

#[derive(Debug, Clone)]
pub struct Topic {
    keep: Keep,
    max_samples: usize,
    last_key: u64,
    entries: Vec<Entry>,
}

#[derive(Debug, Clone, Default)]
pub struct Reference {
    topic: Option<Topic>,
    wrong: Option<Wrong>,
}

impl Reference {
    pub fn new(wrong: Option<Wrong>) -> Self {
        Self { topic: None, wrong }
    }

    pub fn held(&self) -> &[Entry] {
        self.topic.as_ref().map_or(&[], |t| &t.entries)
    }

    pub fn last_key(&self) -> u64 {
        self.topic.as_ref().map_or(0, |t| t.last_key)
    }

    /// "1 comes first everywhere. [..] Program: 10, then the rest."
    pub fn step(&mut self, call: &Call) -> Reply {
        let ten = self.topic.is_none() && !matches!(call, Call::New(_));
        match refused(call) {
            Some(1) => return Reply::Refused(1),
            _ if ten => return Reply::Refused(10),
            Some(number) => return Reply::Refused(number),
            None => (),
        }
        match call {
            Call::New(limits) => self.start(limits),
            Call::Update(limits) => self.update(limits),
            Call::Add(entry) => self.add(entry),
            Call::RemoveBefore(time) => {
                self.remove_before(*time);
                Reply::Ok
            }
            Call::Range(start, end) => self.range(*start, *end),
        }
    }

    fn start(&mut self, limits: &Limits) -> Reply {
        let (keep, max_samples) = self.raised(limits);
        self.topic = Some(Topic {
            keep,
            max_samples,
            last_key: 0,
            entries: Vec::new(),
        });
        Reply::Ok
    }

    fn is(&self, wrong: Wrong) -> bool {
        self.wrong == Some(wrong)
    }

    /// "max_samples 1 to 256, raised to the depth if smaller; defaults depth 1 and 64"
    fn raised(&self, l: &Limits) -> (Keep, usize) {
        let keep = l.keep.unwrap_or(Keep::Last(1));
        let default = if self.is(Wrong::DefaultMax256) {
            256
        } else {
            64
        };
        let max = l.max_samples.unwrap_or(default) as usize;
        match keep {
            Keep::Last(depth) if !self.is(Wrong::MaxNotRaised) => (keep, max.max(depth as usize)),
            _ => (keep, max),
        }
    }

    /// "An update only raises: KeepAll stands above every depth."
    fn update(&mut self, limits: &Limits) -> Reply {
        let (keep, max_samples) = self.raised(limits);
        let all_is_low = self.is(Wrong::KeepAllBelowDepth);
        let sets = self.is(Wrong::UpdateSets);
        let height = |k: Keep| match k {
            Keep::All if all_is_low => 0,
            Keep::All => i32::MAX,
            Keep::Last(depth) => depth,
        };
        let Some(topic) = &mut self.topic else {
            return Reply::Refused(10);
        };
        if sets || height(keep) > height(topic.keep) {
            topic.keep = keep;
        }
        if sets || max_samples > topic.max_samples {
            topic.max_samples = max_samples;
        }
        Reply::Ok
    }

    fn add(&mut self, new: &Entry) -> Reply {
        let before = self.clone();
        if self.is(Wrong::HeldBeforeCollection) && self.holds(new) {
            return Reply::HeldAlready;
        }
        if self.collects(new) {
            self.remove_before(0);
        }
        let full = self.last_key() == u64::MAX;
        let held = self.holds(new);
        if held && !(full && self.is(Wrong::SixBeforeHeld)) {
            return Reply::HeldAlready;
        }
        if full {
            // "Refusal 6 undoes the collection too."
            if !self.is(Wrong::SixLeavesCollection) {
                *self = before;
            }
            return Reply::Refused(6);
        }
        let key = self.key_for(new.key);
        if let Some(topic) = &mut self.topic {
            topic.last_key = key;
            topic.entries.push(Entry { key, ..new.clone() });
        }
        Reply::Key(key)
    }

    fn holds(&self, new: &Entry) -> bool {
        let number_alone = self.is(Wrong::HeldBySequenceAlone);
        let mut held = self.held().iter();
        held.any(|e| e.sequence == new.sequence && (number_alone || e.writer == new.writer))
    }

    /// "if the sequence number is a multiple of 64 (payload up to 1,024 bytes) or of 8 (up to 65,536), always above that, and [..]
    /// whenever the table is full"
    fn collects(&self, new: &Entry) -> bool {
        let small = if self.is(Wrong::SmallBelow1024) {
            1023
        } else {
            1024
        };
        let middle = if self.is(Wrong::MiddleBelow65536) {
            65535
        } else {
            65536
        };
        let by_number = if new.length <= small {
            new.sequence.is_multiple_of(64)
        } else if new.length <= middle {
            new.sequence
                .is_multiple_of(if self.is(Wrong::StepOf16) { 16 } else { 8 })
        } else {
            true
        };
        let full = self.held().len() >= PLACES && !self.is(Wrong::FullWithoutCollection);
        by_number || full
    }

    /// "the key rule above, starting from last key 0 (so time 0 gets key 1)"
    fn key_for(&self, time: u64) -> u64 {
        if self.is(Wrong::FirstKeyIsTime) && self.last_key() == 0 && self.held().is_empty() {
            return time;
        }
        let last = self.last_key();
        if time > last {
            time
        } else {
            last + 1
        }
    }

    /// "drops, from the oldest, max(must, min(may, held keys below t))"
    fn remove_before(&mut self, time: u64) {
        let up_to = self.is(Wrong::RemoveUpToTime);
        let wrong = self.wrong;
        let Some(topic) = &mut self.topic else {
            return;
        };
        let held = topic.entries.len();
        let must = held.saturating_sub(topic.max_samples);
        let may = match topic.keep {
            Keep::All if wrong == Some(Wrong::KeepAllMayToOne) => must.max(held.saturating_sub(1)),
            Keep::All => must,
            Keep::Last(depth) => must.max(held.saturating_sub(depth as usize)),
        };
        let old = topic.entries.iter();
        let below = old
            .filter(|e| e.key < time || (up_to && e.key == time))
            .count();
        let drop = match wrong {
            Some(Wrong::RemoveIgnoresMay) => must.max(below),
            Some(Wrong::MustOnlyBelowTime) if time > 0 => may.min(below),
            _ => must.max(may.min(below)),
        };
        topic.entries.drain(..drop);
    }

    /// "the entries with keys above start and up to end, in key order; with start above end, nothing"
    fn range(&self, start: u64, end: u64) -> Reply {
        let (start, end) = if start > end && self.is(Wrong::RangeSwapped) {
            (end, start)
        } else {
            (start, end)
        };
        let from = self.is(Wrong::RangeFromStart);
        let below = self.is(Wrong::RangeBelowEnd);
        let inside = self.held().iter().filter(|e| {
            let above_start = e.key > start || (from && e.key == start && start <= end);
            let up_to_end = e.key < end || (!below && e.key == end);
            above_start && up_to_end
        });
        Reply::Entries(inside.cloned().collect())
    }
}
