//! Choosing.

use crate::{Cache, Refused, SLOTS};

pub type Masks = [u8; 3];

impl Cache {
    /// Fills `out` with (key, instance) by sequence number and key; answers how many.
    pub fn choose(
        &self,
        within: Option<u64>,
        masks: Masks,
        out: &mut [(u64, u64)],
    ) -> Result<usize, Refused> {
        if masks[0] > 3 || masks[1] > 3 || masks[2] > 7 {
            return Err(1);
        }
        let mut found = [(0u64, 0u64, 0u64); SLOTS];
        let mut count = 0;
        for slot in 0..SLOTS as u16 {
            if self.free.has(slot) {
                continue;
            }
            let s = &self.samples[usize::from(slot)];
            let i = &self.instances[usize::from(s.instance)];
            let read = if s.read { 1 } else { 2 };
            let view = if s.total() > i.accessed { 1 } else { 2 };
            let chosen = masks[0] & read != 0 && masks[1] & view != 0 && masks[2] & i.state != 0;
            if chosen && within.is_none_or(|name| name == i.name) {
                found[count] = (s.sequence, s.key, i.name);
                count += 1;
            }
        }
        if out.len() < count {
            return Err(9);
        }
        found[..count].sort_unstable();
        for (place, (_, key, name)) in out.iter_mut().zip(&found[..count]) {
            *place = (*key, *name);
        }
        Ok(count)
    }
}
