//! What a random session aims at.

use crate::{rng::Rng, session::SetUp};

#[derive(Debug, Clone)]
pub struct Profile {
    pub name: &'static str,
    /// How often each kind of step comes: value, dispose, choose, choose within, read, take, next key.
    pub weights: [u64; 7],
    /// One step in so many is a no-writers event; 0 for none. The same for the three below.
    pub events: u64,
    /// .. is wrong in some field, or out of order, or names a sample that is not live.
    pub faults: u64,
    /// .. add does not care for the common ground.
    pub late: u64,
    /// .. add has time 0 or a time close to 2^64-1.
    pub borders: u64,
    /// Generation counts are put near their limit at some point.
    pub seeds: bool,
    /// Steps, and names in use.
    pub steps: u64,
    pub names: u64,
    pub large: bool,
    pub modes: &'static [u8],
}

const MODES: &[u8] = &[1, 1, 1, 2, 2, 3, 3, 4];

const PLAIN: Profile = Profile {
    name: "plain",
    weights: [6, 2, 2, 1, 3, 1, 1],
    events: 0,
    faults: 0,
    late: 0,
    borders: 0,
    seeds: false,
    steps: 40,
    names: 3,
    large: false,
    modes: MODES,
};

pub const PROFILES: &[Profile] = &[
    PLAIN,
    Profile {
        name: "takes and re-adds",
        weights: [6, 2, 1, 1, 1, 5, 1],
        ..PLAIN
    },
    // Few instances, many rebirths and takes of the latest sample, so that totals differ and the latest live sample is not the
    // last accepted one.
    Profile {
        name: "ranks",
        weights: [7, 5, 0, 0, 6, 3, 0],
        names: 2,
        ..PLAIN
    },
    Profile {
        name: "masks",
        weights: [4, 3, 8, 4, 3, 1, 0],
        events: 12,
        ..PLAIN
    },
    Profile {
        name: "events",
        weights: [6, 3, 2, 1, 4, 2, 1],
        events: 5,
        ..PLAIN
    },
    Profile {
        name: "counts near the limit",
        weights: [6, 5, 1, 1, 4, 1, 0],
        events: 8,
        seeds: true,
        names: 2,
        ..PLAIN
    },
    Profile {
        name: "border times",
        weights: [8, 2, 2, 0, 3, 1, 0],
        borders: 3,
        ..PLAIN
    },
    Profile {
        name: "full tables",
        weights: [24, 6, 1, 1, 1, 1, 1],
        steps: 420,
        names: 40,
        large: true,
        ..PLAIN
    },
    Profile {
        name: "bad lists",
        weights: [6, 2, 1, 1, 5, 5, 0],
        faults: 6,
        ..PLAIN
    },
    Profile {
        name: "late adds",
        weights: [7, 2, 2, 1, 2, 4, 1],
        late: 2,
        events: 20,
        ..PLAIN
    },
    Profile {
        name: "everything",
        weights: [6, 3, 2, 1, 3, 3, 1],
        events: 10,
        faults: 10,
        late: 4,
        borders: 12,
        seeds: false,
        steps: 60,
        names: 6,
        large: false,
        modes: MODES,
    },
    // Up to refusal 5, and beyond it to its place in the order.
    Profile {
        name: "no keep count, full",
        weights: [120, 24, 1, 1, 2, 1, 1],
        faults: 20,
        steps: 450,
        names: 40,
        large: true,
        modes: &[3],
        ..PLAIN
    },
];

impl Profile {
    /// How many sessions to make of it where so many are asked for: a large one counts for ten.
    pub fn sessions(&self, asked: u64) -> u64 {
        if self.large {
            asked.div_ceil(10)
        } else {
            asked
        }
    }

    /// An accepted set-up: small depths mostly, so that samples are pushed out; at times the largest table.
    pub fn set_up(&self, rng: &mut Rng) -> SetUp {
        let mode = rng.pick(self.modes);
        if self.large {
            let (instances, keep) =
                rng.pick(&[(32, 8), (16, 16), (4, 64), (1, 256), (31, 8), (3, 85)]);
            return set_up(mode, keep, instances);
        }
        let instances = rng.pick(&[1, 2, 2, 3, 4, 32]);
        let keep = rng.pick(&[1, 1, 2, 2, 3, 4, 8]);
        set_up(mode, keep, instances)
    }
}

fn set_up(mode: u8, keep: i32, instances: u16) -> SetUp {
    let keep = if mode <= 2 { keep } else { 0 };
    SetUp {
        mode,
        keep,
        instances,
    }
}
