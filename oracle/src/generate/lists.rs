//! Key lists over the live pairs.

use crate::{rng::Rng, session::Pair};

/// A list that is accepted: all, some, one; in order, backwards, shuffled.
pub fn list(rng: &mut Rng, mut live: Vec<Pair>) -> Vec<Pair> {
    live.sort();
    match rng.below(8) {
        0 => (),
        1 => live.reverse(),
        // The latest sample alone: after its take the latest live one is another.
        2 | 3 => live = live.split_off(live.len().saturating_sub(1)),
        4 => live.truncate(1),
        5 => {
            let name = live.first().map_or(0, |(_, name)| *name);
            live.retain(|(_, n)| *n == name);
        }
        _ => {
            rng.shuffle(&mut live);
            let length = 1 + rng.below(4) as usize;
            live.truncate(length);
        }
    }
    if rng.one_in(30) {
        live.clear();
    }
    live
}

/// A list with a repeat, a dead pair, or a live key under another instance, at any place.
pub fn bad_list(rng: &mut Rng, live: Vec<Pair>, names: &[u64]) -> Vec<Pair> {
    let mut out = list(rng, live);
    let (key, name) = out.first().copied().unwrap_or((10, 5));
    let wrong = match rng.below(5) {
        0 => (key, name),
        1 => (key, rng.pick(names)),
        2 => (key.wrapping_add(1), name),
        3 => (key.wrapping_sub(1), name),
        _ => (rng.below(30), rng.pick(names)),
    };
    let at = rng.below(out.len() as u64 + 1) as usize;
    out.insert(at, wrong);
    if rng.one_in(40) {
        // More pairs than there are slots: still 8, never 1 or 9.
        out = out.iter().copied().cycle().take(4095).collect();
    }
    out
}
