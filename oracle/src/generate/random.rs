//! One random session. The maker runs the reference along, to know which keys are live and where the common ground ends.

use super::{
    lists::{bad_list, list},
    profile::Profile,
    Step,
};
use crate::{
    reference::{Cache, Counts, Reference},
    rng::Rng,
    session::{Add, Masks, Record, SetUp},
};

pub struct Maker<'a> {
    pub rng: &'a mut Rng,
    profile: &'a Profile,
    known: Reference,
    steps: Vec<Step>,
    handle: u32,
    names: Vec<u64>,
}

pub fn session(rng: &mut Rng, profile: &Profile) -> Vec<Step> {
    let mut maker = Maker {
        names: names(rng, profile),
        rng,
        profile,
        known: Reference::default(),
        steps: Vec::new(),
        handle: 0,
    };
    maker.whole();
    maker.steps
}

/// Names out of order, so that a sorted table has to move; at times the two ends of the range.
fn names(rng: &mut Rng, profile: &Profile) -> Vec<u64> {
    let mut names: Vec<u64> = (0..profile.names).map(|n| 5 + 3 * n).collect();
    if rng.one_in(3) {
        names[0] = rng.pick(&[0, u64::MAX, 1 << 63]);
    }
    rng.shuffle(&mut names);
    names
}

impl Maker<'_> {
    fn whole(&mut self) {
        if self.fault() {
            let early = self.faulty();
            self.push(early);
        }
        let s = self.profile.set_up(self.rng);
        self.push(Record::SetUp(s));
        let steps = self.profile.steps / 2 + self.rng.below(self.profile.steps);
        for n in 0..steps {
            if self.profile.seeds && n % 7 == 6 {
                self.seed();
            }
            let record = self.next();
            self.push(record);
        }
        // What is left at the end shows what the steps did.
        self.push(Record::Choose([3, 3, 7]));
        let all = self.pairs();
        self.push(Record::Read(all.clone()));
        self.push(Record::Choose([3, 1, 7]));
        self.push(Record::Take(all));
    }

    fn push(&mut self, record: Record) {
        self.known.step(&record);
        self.steps.push(Step::Record(record));
    }

    fn fault(&mut self) -> bool {
        self.profile.faults > 0 && self.rng.one_in(self.profile.faults)
    }

    fn next(&mut self) -> Record {
        if self.fault() {
            return self.faulty();
        }
        if self.profile.events > 0 && self.rng.one_in(self.profile.events) {
            return Record::NoWriters(self.held_name());
        }
        let weights = self.profile.weights;
        let mut roll = self.rng.below(weights.iter().sum());
        let kind = weights.iter().position(|w| {
            let hit = roll < *w;
            roll = roll.saturating_sub(*w);
            hit
        });
        match kind {
            Some(0) => self.add(1),
            Some(1) => self.add(2),
            Some(2) => Record::Choose(self.masks()),
            Some(3) => Record::ChooseWithin(self.name(), self.masks()),
            Some(4) => Record::Read(self.list()),
            Some(5) => Record::Take(self.list()),
            _ => Record::NextKey(self.near_name()),
        }
    }

    fn name(&mut self) -> u64 {
        // Up to the limit of instances, unless a fault is wanted: a refusal ends the comparison with the Rust.
        let limit = self.cache().map_or(1, |c| c.limit);
        let usable = if self.fault() {
            self.names.len()
        } else {
            limit.min(self.names.len())
        };
        self.names[self.rng.below(usable as u64) as usize]
    }

    /// An event for an unknown instance is a refusal, so mostly one that is held.
    fn held_name(&mut self) -> u64 {
        let held: Vec<u64> = self
            .cache()
            .map_or(Vec::new(), |c| c.instances.iter().map(|i| i.name).collect());
        if held.is_empty() || self.fault() {
            return self.name();
        }
        self.rng.pick(&held)
    }

    fn near_name(&mut self) -> u64 {
        let name = self.rng.pick(&self.names);
        let near = [
            name,
            name.wrapping_add(1),
            name.wrapping_sub(1),
            0,
            u64::MAX,
        ];
        self.rng.pick(&near)
    }

    fn cache(&self) -> Option<&Cache> {
        self.known.cache.as_ref()
    }

    fn pairs(&self) -> Vec<(u64, u64)> {
        let live = self.cache().map_or(Vec::new(), Cache::live);
        live.iter().map(|(i, s)| (s.key, i.name)).collect()
    }

    fn list(&mut self) -> Vec<(u64, u64)> {
        let live = self.pairs();
        if self.fault() {
            bad_list(self.rng, live, &self.names)
        } else {
            list(self.rng, live)
        }
    }

    fn masks(&mut self) -> Masks {
        let any = [3, 3, 7];
        if self.rng.one_in(4) {
            return any;
        }
        [
            self.rng.below(4) as u8,
            self.rng.below(4) as u8,
            self.rng.below(8) as u8,
        ]
    }

    fn add(&mut self, kind: u8) -> Record {
        self.handle += 1;
        let writer = [self.rng.below(3) as u8; 16];
        let sequence = match self.rng.below(6) {
            0 => 1 + self.rng.below(4),
            1 => (1 << 63) - 1 - self.rng.below(2),
            _ => self.handle.into(),
        };
        Record::Add(Add {
            instance: self.name(),
            writer,
            sequence,
            time: self.time(),
            kind,
            handle: if self.rng.one_in(20) { 0 } else { self.handle },
        })
    }

    fn time(&mut self) -> u64 {
        let border = self.profile.borders > 0 && self.rng.one_in(self.profile.borders);
        let Some(last) = self.cache().and_then(|c| c.last_key) else {
            return if border {
                self.rng.pick(&[0, u64::MAX, u64::MAX - 9])
            } else {
                10
            };
        };
        let live = self.pairs().iter().any(|(key, _)| *key == last);
        let careless = self.profile.late > 0 && self.rng.one_in(self.profile.late);
        let later = [1, 1, 2, 10, 40].map(|more| last.saturating_add(more));
        if !live && !careless {
            return self.rng.pick(&later);
        }
        if border {
            let close = last.saturating_add((u64::MAX - last) / 2);
            return self.rng.pick(&[0, 0, 1, close, u64::MAX - 30, u64::MAX]);
        }
        let earlier = [
            last,
            last,
            last.wrapping_sub(1).min(last),
            self.rng.below(last.max(1)),
        ];
        if self.rng.one_in(2) {
            self.rng.pick(&earlier)
        } else {
            self.rng.pick(&later)
        }
    }

    fn seed(&mut self) {
        let name = self.name();
        let limit = i32::MAX;
        let disposed = self.rng.pick(&[limit, limit - 1, limit - 2, limit / 2, 0]);
        let rest = limit - disposed;
        let counts = Counts {
            disposed,
            no_writers: self.rng.pick(&[rest, (rest - 1).max(0), rest / 2, 0]),
        };
        if let Some(cache) = &mut self.known.cache {
            // Counts never fall in a run, so they do not here.
            let held = cache
                .place_of(name)
                .map(|at| cache.instances[at].counts.total());
            if held.is_some_and(|total| total <= counts.total()) {
                cache.seed_counts(name, counts);
                self.steps.push(Step::Seed(name, counts));
            }
        }
    }

    /// A record that is refused, or would be if the order of refusals were another.
    fn faulty(&mut self) -> Record {
        let mut add = match self.add(1) {
            Record::Add(a) => a,
            other => return other,
        };
        let live = self.pairs();
        match self.rng.below(10) {
            0 => add.kind = self.rng.pick(&[0, 3, 255]),
            1 => add.sequence = self.rng.pick(&[0, 1 << 63, u64::MAX]),
            2 => {
                return Record::Choose(self.rng.pick(&[
                    [4, 3, 7],
                    [3, 4, 7],
                    [3, 3, 8],
                    [255, 0, 0],
                ]))
            }
            3 => {
                return Record::ChooseWithin(
                    99,
                    self.rng.pick(&[[4, 3, 7], [3, 4, 7], [3, 3, 8], [3, 3, 7]]),
                )
            }
            4 => return Record::NoWriters(99),
            5 => return Record::SetUp(self.any_set_up()),
            6 => add.instance = 1000 + self.rng.below(40),
            // Seldom, because every add after it is refused with 6.
            7 if !self.profile.large && self.rng.one_in(6) => add.time = u64::MAX,
            7 => add.instance = u64::MAX - 1,
            8 => return Record::Read(bad_list(self.rng, live, &self.names)),
            _ => return Record::Take(bad_list(self.rng, live, &self.names)),
        }
        Record::Add(add)
    }

    fn any_set_up(&mut self) -> SetUp {
        SetUp {
            mode: self.rng.below(6) as u8,
            keep: self
                .rng
                .pick(&[0, 1, -1, 8, 9, 256, 257, i32::MAX, i32::MIN]),
            instances: self.rng.pick(&[0, 1, 2, 32, 33, u16::MAX]),
        }
    }
}
