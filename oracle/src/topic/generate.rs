//! Random runs of calls on a topic cache, aimed at its borders.

use super::{reference::Reference, Call, Entry, Keep, Limits};
use crate::rng::Rng;

/// How a run is made: `tight` keeps few and collects often; `filling` uses numbers and payloads that never collect, up to and past
/// 384 held.
#[derive(Debug, Clone, Copy, PartialEq, Eq)]
pub enum Kind {
    Tight,
    Wide,
    Filling,
    Faulty,
}

pub const KINDS: [Kind; 4] = [Kind::Tight, Kind::Wide, Kind::Filling, Kind::Faulty];

/// Runs by hand: the greatest key with a collection due, and a full table.
pub fn corners() -> Vec<Vec<Call>> {
    let entry = |sequence, time, length| {
        Call::Add(Entry {
            key: time,
            writer: [1; 16],
            sequence,
            handle: sequence as u32,
            length,
        })
    };
    let limits = Limits {
        keep: Some(Keep::Last(1)),
        max_samples: Some(2),
    };
    let all = Call::Range(0, u64::MAX);
    let adds = [entry(1, 0, 0), entry(2, 0, 0), entry(3, u64::MAX, 0)];
    let mut greatest = vec![Call::New(limits)];
    greatest.extend(adds);
    greatest.extend([
        entry(64, 5, 0),
        all.clone(),
        entry(2, 5, 70_000),
        all.clone(),
        entry(1, 5, 70_000),
        all.clone(),
    ]);
    let mut full = vec![Call::New(limits)];
    full.extend((0..384).map(|n| entry(64 * n + 1, n, 1024)));
    full.extend([all.clone(), entry(7, 0, 0), all]);
    vec![greatest, full]
}

/// Three writers that differ in the first or the last byte alone; every hex digit is in them, and no two bytes are alike.
fn writer(number: u64) -> [u8; 16] {
    let mut out = [
        0x01, 0x23, 0x45, 0x67, 0x89, 0xab, 0xcd, 0xef, 0xfe, 0xdc, 0xba, 0x98, 0x76, 0x54, 0x32,
        0x10,
    ];
    match number {
        0 => (),
        1 => out[0] = 0xf0,
        _ => out[15] = 0x0f,
    }
    out
}

struct Maker<'a> {
    rng: &'a mut Rng,
    kind: Kind,
    known: Reference,
    calls: Vec<Call>,
    number: u64,
}

pub fn run(rng: &mut Rng, kind: Kind) -> Vec<Call> {
    let mut maker = Maker {
        rng,
        kind,
        known: Reference::default(),
        calls: Vec::new(),
        number: 0,
    };
    // Seldom a call before the first new.
    if kind == Kind::Faulty && maker.rng.one_in(10) {
        let early = maker.next();
        maker.push(early);
    }
    let limits = maker.limits();
    maker.push(Call::New(limits));
    let steps = match kind {
        Kind::Tight => 40 + maker.rng.below(60),
        Kind::Wide => 100 + maker.rng.below(300),
        Kind::Filling => 380 + maker.rng.below(60),
        Kind::Faulty => 60 + maker.rng.below(60),
    };
    for _ in 0..steps {
        let call = maker.next();
        maker.push(call);
    }
    maker.push(Call::Range(0, u64::MAX));
    maker.calls
}

impl Maker<'_> {
    fn push(&mut self, call: Call) {
        self.known.step(&call);
        self.calls.push(call);
    }

    fn limits(&mut self) -> Limits {
        let wide = self.kind != Kind::Tight;
        let faulty = self.kind == Kind::Faulty && self.rng.one_in(5);
        let sizes: &[i32] = match (faulty, wide) {
            (true, _) => &[0, -1, 257, i32::MIN, i32::MAX],
            (_, true) => &[1, 2, 10, 63, 64, 65, 100, 255, 256],
            _ => &[1, 1, 2, 3, 4, 5, 8],
        };
        let depth = self.rng.pick(sizes);
        let max = self.rng.pick(sizes);
        Limits {
            keep: self.rng.pick(&[
                None,
                Some(Keep::All),
                Some(Keep::Last(depth)),
                Some(Keep::Last(depth)),
            ]),
            max_samples: self.rng.pick(&[None, Some(max), Some(max)]),
        }
    }

    fn next(&mut self) -> Call {
        let filling = self.kind == Kind::Filling;
        if self.kind == Kind::Faulty && self.rng.one_in(40) {
            return Call::New(self.limits());
        }
        match self.rng.below(if filling { 300 } else { 12 }) {
            0 => Call::Update(self.limits()),
            1 => Call::RemoveBefore(self.near_key()),
            2 | 3 => Call::Range(self.near_key(), self.near_key()),
            _ => Call::Add(self.entry()),
        }
    }

    /// Some held key or the one beside it, or an end of the range.
    fn near_key(&mut self) -> u64 {
        let keys: Vec<u64> = self.known.held().iter().map(|e| e.key).collect();
        if keys.is_empty() || self.rng.one_in(6) {
            return self.rng.pick(&[0, 1, u64::MAX]);
        }
        let key = self.rng.pick(&keys);
        self.rng
            .pick(&[key, key, key.wrapping_add(1), key.wrapping_sub(1)])
    }

    fn entry(&mut self) -> Entry {
        let seldom = if self.kind == Kind::Filling { 60 } else { 5 };
        let repeat = self.rng.one_in(seldom) && !self.known.held().is_empty();
        let again = if repeat {
            Some(self.rng.pick(self.known.held()))
        } else {
            None
        };
        self.number += 1;
        let (writer, sequence) = again.map_or_else(|| self.fresh(), |e| (e.writer, e.sequence));
        let length = match self.kind {
            Kind::Filling => self.rng.pick(&[0, 1, 1024]),
            _ => self.rng.pick(&[
                0,
                1023,
                1024,
                1024,
                1025,
                65535,
                65536,
                65536,
                65537,
                u32::MAX,
            ]),
        };
        Entry {
            key: self.time(),
            writer,
            sequence,
            handle: self.number as u32,
            length,
        }
    }

    fn fresh(&mut self) -> ([u8; 16], u64) {
        let writer = writer(self.rng.below(3));
        if self.kind == Kind::Filling {
            return (writer, 64 * self.number + 1 + self.rng.below(63));
        }
        if self.kind == Kind::Faulty && self.rng.one_in(10) {
            return (writer, self.rng.pick(&[0, 1 << 63, u64::MAX]));
        }
        let any = self.rng.pick(&[
            8,
            16,
            64,
            128,
            7,
            63,
            65,
            (1 << 63) - 1,
            (1 << 63) - 8,
            (1 << 63) - 64,
        ]);
        let sequence = if self.rng.one_in(3) { any } else { self.number };
        (writer, sequence)
    }

    fn time(&mut self) -> u64 {
        let last = self.known.last_key();
        let faulty = self.kind == Kind::Faulty;
        if faulty && self.rng.one_in(40) {
            return u64::MAX;
        }
        let choices = [
            0,
            last,
            last.saturating_sub(1),
            last.saturating_add(1),
            last.saturating_add(9),
            last / 2,
        ];
        self.rng.pick(&choices)
    }
}
