//! All short sessions: every sequence of letters up to a length, over two instances, in five set-ups. A letter may look at the
//! cache (the latest live key, say), so the reference runs along.

use super::Step;
use crate::{
    reference::{Cache, Reference},
    session::{Add, Pair, Record, SetUp},
};

pub const SET_UPS: [SetUp; 5] = [
    SetUp {
        mode: 1,
        keep: 1,
        instances: 2,
    },
    SetUp {
        mode: 1,
        keep: 2,
        instances: 2,
    },
    SetUp {
        mode: 2,
        keep: 2,
        instances: 2,
    },
    SetUp {
        mode: 3,
        keep: 0,
        instances: 2,
    },
    SetUp {
        mode: 4,
        keep: 0,
        instances: 2,
    },
];

pub const LETTERS: u32 = 11;

const A: u64 = 1;
const B: u64 = 2;

/// The session that a word of letters spells, with a look at the end state.
pub fn session(set_up: SetUp, word: &[u32]) -> Vec<Step> {
    let mut known = Reference::default();
    let mut steps = Vec::new();
    let mut push = |known: &mut Reference, record: Record| {
        known.step(&record);
        steps.push(Step::Record(record));
    };
    push(&mut known, Record::SetUp(set_up));
    for (n, letter) in word.iter().enumerate() {
        let record = spell(*letter, n as u32 + 1, known.cache.as_ref());
        push(&mut known, record);
    }
    push(&mut known, Record::Choose([3, 3, 7]));
    push(&mut known, Record::Choose([2, 1, 1]));
    let all = live(known.cache.as_ref());
    push(&mut known, Record::Read(all));
    steps
}

fn live(cache: Option<&Cache>) -> Vec<Pair> {
    let found = cache.map_or(Vec::new(), Cache::live);
    let mut pairs: Vec<Pair> = found.iter().map(|(i, s)| (s.key, i.name)).collect();
    pairs.sort();
    pairs
}

fn spell(letter: u32, handle: u32, cache: Option<&Cache>) -> Record {
    let last = cache.and_then(|c| c.last_key).unwrap_or(10);
    let mut pairs = live(cache);
    let add = |instance, kind, time| {
        Record::Add(Add {
            instance,
            writer: [0; 16],
            // Falling numbers, so that the order of choices is not that of keys.
            sequence: u64::from(100 - handle / 2),
            time,
            kind,
            handle,
        })
    };
    match letter {
        0 => add(A, 1, last + 5),
        1 => add(A, 2, last + 5),
        2 => add(A, 1, last),
        3 => add(B, 1, last + 5),
        4 => add(B, 2, 0),
        5 => Record::NoWriters(A),
        6 => Record::Read(pairs),
        7 => {
            pairs.reverse();
            Record::Take(pairs)
        }
        8 => Record::Take(pairs.split_off(pairs.len().saturating_sub(1))),
        9 => {
            pairs.truncate(1);
            Record::Take(pairs)
        }
        _ => {
            pairs.truncate(1);
            Record::Read(pairs)
        }
    }
}

/// The word with this number, among all of that length.
pub fn word(mut number: u64, length: u32) -> Vec<u32> {
    let mut out = Vec::new();
    for _ in 0..length {
        out.push((number % u64::from(LETTERS)) as u32);
        number /= u64::from(LETTERS);
    }
    out
}

pub fn words(length: u32) -> u64 {
    u64::from(LETTERS).pow(length)
}
