//! Reading and taking by key lists.

use load::Info;

use crate::{table::Free, Cache, Refused, NONE, SLOTS};

impl Cache {
    pub fn read(&mut self, list: &[(u64, u64)], out: &mut [Info]) -> Result<usize, Refused> {
        self.read_or_take(list, out, false)
    }

    pub fn take(&mut self, list: &[(u64, u64)], out: &mut [Info]) -> Result<usize, Refused> {
        self.read_or_take(list, out, true)
    }

    fn read_or_take(
        &mut self,
        list: &[(u64, u64)],
        out: &mut [Info],
        take: bool,
    ) -> Result<usize, Refused> {
        let mut slots = [0u16; SLOTS];
        let m = self.slots_of(list, &mut slots)?;
        if out.len() < m {
            return Err(9);
        }
        let slots = &slots[..m];
        let Some(last) = slots.last() else {
            return Ok(0);
        };
        let in_list =
            self.instances[usize::from(self.samples[usize::from(*last)].instance)].total();
        let latest = self.latest_total();
        for (p, slot) in slots.iter().enumerate() {
            out[p] = self.info(*slot, m - 1 - p, in_list, latest);
        }
        self.mark_views(slots);
        for slot in slots {
            self.samples[usize::from(*slot)].read = true;
            if take {
                self.remove(*slot);
            }
        }
        Ok(m)
    }

    /// The slots that the list names, each once.
    fn slots_of(&self, list: &[(u64, u64)], slots: &mut [u16; SLOTS]) -> Result<usize, Refused> {
        // A slot leaves this set when the list names it; a second time it is gone.
        let mut seen = Free::all();
        for (p, (key, name)) in list.iter().enumerate() {
            let slot = self.find(*key, *name).ok_or(8u8)?;
            if !seen.remove(slot) {
                return Err(8);
            }
            slots[p] = slot;
        }
        Ok(list.len())
    }

    fn find(&self, key: u64, name: u64) -> Option<u16> {
        let at = self.names.find(name)?;
        if self.depth == 0 {
            let mut live = (0..SLOTS as u16).filter(|s| !self.free.has(*s));
            return live.find(|s| {
                let sample = &self.samples[usize::from(*s)];
                sample.key == key && usize::from(sample.instance) == at
            });
        }
        let ring = at * self.depth..(at + 1) * self.depth;
        let place = self.cell_keys[ring.clone()]
            .iter()
            .position(|k| *k == key)?;
        let slot = self.cells[ring][place];
        (slot != NONE).then_some(slot)
    }

    /// The total of the latest-keyed live sample. It is looked for only where the last accepted one was taken.
    fn latest_total(&self) -> i32 {
        if let Some(slot) = self.latest {
            return self.samples[usize::from(slot)].total();
        }
        let live = (0..SLOTS as u16).filter(|s| !self.free.has(*s));
        let samples = live.map(|s| &self.samples[usize::from(s)]);
        samples.max_by_key(|s| s.key).map_or(0, |s| s.total())
    }

    fn info(&self, slot: u16, sample_rank: usize, in_list: i32, latest: i32) -> Info {
        let s = &self.samples[usize::from(slot)];
        let i = &self.instances[usize::from(s.instance)];
        let total = s.total();
        Info {
            handle: s.handle,
            kind: s.kind,
            sample_state: if s.read { 1 } else { 2 },
            view_state: if total > i.accessed { 1 } else { 2 },
            instance_state: i.state,
            disposed_count: s.disposed,
            no_writers_count: s.no_writers,
            sample_rank: sample_rank as i32,
            generation_rank: in_list - total,
            absolute_generation_rank: latest - total,
            writer: s.writer,
            sequence: s.sequence,
        }
    }

    /// Each instance in the list: the greatest total that the list showed for it.
    fn mark_views(&mut self, slots: &[u16]) {
        let mut shown = 0u32;
        for slot in slots {
            let s = &self.samples[usize::from(*slot)];
            let i = &mut self.instances[usize::from(s.instance)];
            let bit = 1 << s.instance;
            if shown & bit == 0 || s.total() > i.accessed {
                i.accessed = s.total();
            }
            shown |= bit;
        }
    }

    fn remove(&mut self, slot: u16) {
        let s = self.samples[usize::from(slot)];
        if self.depth > 0 {
            let at = usize::from(s.instance);
            let ring = at * self.depth..(at + 1) * self.depth;
            if let Some(cell) = self.cells[ring].iter_mut().find(|c| **c == slot) {
                *cell = NONE;
            }
        }
        self.free.give_back(slot);
        if self.latest == Some(slot) {
            self.latest = None;
        }
    }
}
