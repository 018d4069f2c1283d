//! Choosing, reading, taking.

use super::cache::{Cache, Instance, Sample};
use crate::{
    answer::{Answer, Info},
    session::{Masks, Pair},
    wrong::Wrong,
};

const READ: u8 = 1;
const NOT_READ: u8 = 2;
const NEW: u8 = 1;
const NOT_NEW: u8 = 2;

fn sample_state(s: &Sample) -> u8 {
    if s.read {
        READ
    } else {
        NOT_READ
    }
}

impl Cache {
    /// "A sample is New if its total is greater than its instance's last accessed total."
    fn view_state(&self, i: &Instance, s: &Sample) -> u8 {
        let total = s.counts.total();
        let new = total > i.accessed || (self.is(Wrong::NewFromEqual) && total == i.accessed);
        if new {
            NEW
        } else {
            NOT_NEW
        }
    }

    /// "A sample is chosen if all three of its states are in the masks; mask 0 chooses nothing."
    fn chosen(&self, masks: Masks, i: &Instance, s: &Sample) -> bool {
        let life = if self.is(Wrong::MaskBySampleKind) {
            s.kind
        } else {
            i.state
        };
        let states = [sample_state(s), self.view_state(i, s), life];
        let all_of_zero = self.is(Wrong::MaskZeroChoosesAll);
        let mut each = masks.iter().zip(states);
        each.all(|(mask, state)| mask & state != 0 || (all_of_zero && *mask == 0))
    }

    /// "Order: by sequence number, equal ones by key."
    pub fn choose(&self, within: Option<u64>, masks: Masks) -> Answer {
        if let Some(name) = within {
            if self.is(Wrong::UnknownInstanceRefused) && self.place_of(name).is_none() {
                return Answer::Refused(3);
            }
        }
        let mut found = self.live();
        found.retain(|(i, s)| within.is_none_or(|name| i.name == name) && self.chosen(masks, i, s));
        found.sort_by_key(|(i, s)| match self.wrong {
            Some(Wrong::SortByKeyAlone) => (0, 0, s.key),
            Some(Wrong::TiesByInstance) => (s.sequence, i.name, s.key),
            _ => (s.sequence, 0, s.key),
        });
        Answer::Selected(found.iter().map(|(i, s)| (s.key, i.name)).collect())
    }

    pub fn read_or_take(&mut self, list: &[Pair], take: bool) -> Answer {
        let Some(places) = self.places(list) else {
            return Answer::Refused(8);
        };
        if self.is(Wrong::MarkBeforeInfos) {
            self.mark(&places, take);
        }
        let infos = self.infos(&places);
        self.mark(&places, take);
        for (n, (i, s)) in places.iter().enumerate() {
            let sample = &mut self.instances[*i].accepted[*s];
            let marked = self.wrong != Some(Wrong::ReadMarksOnlyLast) || n + 1 == places.len();
            sample.read |= marked;
            sample.taken |= take;
        }
        Answer::Samples(infos)
    }

    /// The samples that a list names, or nothing if it "names a pair not live, or a pair twice".
    fn places(&self, list: &[Pair]) -> Option<Vec<(usize, usize)>> {
        let mut places = Vec::new();
        for (n, (key, name)) in list.iter().enumerate() {
            let twice = list[..n].contains(&(*key, *name));
            if twice && !self.is(Wrong::RepeatAllowed) {
                return None;
            }
            places.push(self.find(*key, *name)?);
        }
        Some(places)
    }

    fn infos(&self, places: &[(usize, usize)]) -> Vec<Info> {
        let Some((last_instance, last_sample)) = places.last() else {
            return Vec::new();
        };
        let in_list = match self.wrong {
            Some(Wrong::GenerationByLastSample) => {
                self.instances[*last_instance].accepted[*last_sample].counts
            }
            Some(Wrong::GenerationByFirstPair) => self.instances[places[0].0].counts,
            _ => self.instances[*last_instance].counts,
        };
        let latest = self.latest_total();
        let each = places.iter().enumerate();
        each.map(|(p, (i, s))| {
            let instance = &self.instances[*i];
            let sample = &instance.accepted[*s];
            let total = sample.counts.total();
            let ranks = Ranks {
                sample: self.sample_rank(places.len(), p),
                generation: in_list.total() - total,
                absolute: self.absolute_rank(latest, instance, total),
            };
            self.info(instance, sample, ranks)
        })
        .collect()
    }

    /// "sample_rank is m-1-p"
    fn sample_rank(&self, m: usize, p: usize) -> i64 {
        if self.is(Wrong::SampleRankFromFront) {
            p as i64
        } else {
            (m - 1 - p) as i64
        }
    }

    /// "the total of the latest-keyed live sample of the whole cache"
    fn latest_total(&self) -> i64 {
        if self.is(Wrong::AbsoluteByLastAccepted) {
            let all = self.instances.iter().flat_map(|i| &i.accepted);
            return all.max_by_key(|s| s.key).map_or(0, |s| s.counts.total());
        }
        let live = self.live();
        let latest = live.iter().max_by_key(|(_, s)| s.key);
        latest.map_or(0, |(_, s)| s.counts.total())
    }

    fn absolute_rank(&self, latest: i64, instance: &Instance, total: i64) -> i64 {
        match self.wrong {
            Some(Wrong::AbsoluteWithinInstance) => instance.counts.total() - total,
            Some(Wrong::AbsoluteNotNegative) => (latest - total).max(0),
            _ => latest - total,
        }
    }

    fn info(&self, i: &Instance, s: &Sample, ranks: Ranks) -> Info {
        let of_sample = self.is(Wrong::InstanceStateOfSample);
        Info {
            handle: s.handle,
            kind: s.kind,
            sample_state: sample_state(s),
            view_state: self.view_state(i, s),
            instance_state: if of_sample { s.kind } else { i.state },
            disposed_count: s.counts.disposed,
            no_writers_count: s.counts.no_writers,
            sample_rank: ranks.sample,
            generation_rank: ranks.generation,
            absolute_generation_rank: ranks.absolute,
            writer: s.writer,
            sequence: s.sequence,
        }
    }

    /// "each instance in the list gets as last accessed the greatest total that this list showed for it, even if that is lower"
    fn mark(&mut self, places: &[(usize, usize)], take: bool) {
        if take && self.is(Wrong::TakeMarksNoView) {
            return;
        }
        for (i, s) in places {
            let of_instance = places.iter().filter(|(j, _)| i == j);
            let totals = of_instance.map(|(j, t)| self.instances[*j].accepted[*t].counts.total());
            let mut shown = totals.clone().max().unwrap_or(-2);
            let instance = &self.instances[*i];
            match self.wrong {
                Some(Wrong::AccessedNeverFalls) => shown = shown.max(instance.accessed),
                Some(Wrong::AccessedByInstance) => shown = instance.counts.total(),
                Some(Wrong::AccessedByLastOfList) => shown = instance.accepted[*s].counts.total(),
                _ => (),
            }
            self.instances[*i].accessed = shown;
        }
    }
}

struct Ranks {
    sample: i64,
    generation: i64,
    absolute: i64,
}
