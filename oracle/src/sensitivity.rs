//! Does the comparison see anything? Every wrong variant of the reference, over one stream of random sessions.

use crate::{
    compare::{variant_parts, with_the_rust, Tally},
    generate::{corners::corners, profile::PROFILES, random, Step},
    rng::Rng,
    topic,
    wrong::{Caught, Wrong},
};

pub struct Row {
    pub name: String,
    pub caught: Caught,
    pub text: &'static str,
    /// In how many sessions the Rust, on its ground and by the hooks, tells the variant from the reference.
    pub by_the_rust: usize,
    /// In how many sessions the reference does: what a comparison with a program would see.
    pub by_the_reference: usize,
}

/// Sessions by hand, and random ones of each profile with `name` in its name.
pub fn stream(seed: u64, sessions: u64, name: &str) -> Vec<Vec<Step>> {
    let mut rng = Rng::new(seed);
    let by_hand = corners().into_iter();
    let mut out: Vec<Vec<Step>> = by_hand
        .map(|(_, all)| all.into_iter().map(Step::Record).collect())
        .collect();
    for profile in PROFILES.iter().filter(|p| p.name.contains(name)) {
        for _ in 0..profile.sessions(sessions) {
            out.push(random::session(&mut rng, profile));
        }
    }
    out
}

pub fn rows(sessions: &[Vec<Step>]) -> Vec<Row> {
    let each = Wrong::ALL.iter();
    each.map(|(wrong, caught, text)| Row {
        name: format!("{wrong:?}"),
        caught: *caught,
        text,
        by_the_rust: sessions.iter().filter(|s| the_rust_sees(s, *wrong)).count(),
        by_the_reference: sessions.iter().filter(|s| variant_parts(s, *wrong)).count(),
    })
    .collect()
}

fn the_rust_sees(steps: &[Step], wrong: Wrong) -> bool {
    let mut tally = Tally::default();
    with_the_rust(steps, Some(wrong), &mut tally);
    !tally.differences.is_empty()
}

pub fn topic_stream(seed: u64, runs: usize) -> Vec<Vec<topic::Call>> {
    let mut rng = Rng::new(seed);
    let kinds = topic::generate::KINDS.into_iter().cycle().take(4 * runs);
    let random = kinds.map(|kind| topic::generate::run(&mut rng, kind));
    topic::generate::corners()
        .into_iter()
        .chain(random)
        .collect()
}

pub fn topic_rows(runs: &[Vec<topic::Call>]) -> Vec<Row> {
    let each = topic::wrong::Wrong::ALL.iter();
    each.map(|(wrong, caught, text)| Row {
        name: format!("topic {wrong:?}"),
        caught: *caught,
        text,
        by_the_rust: runs
            .iter()
            .filter(|r| the_topic_cache_sees(r, *wrong))
            .count(),
        by_the_reference: runs
            .iter()
            .filter(|r| topic::compare::variant_parts(r, *wrong))
            .count(),
    })
    .collect()
}

fn the_topic_cache_sees(calls: &[topic::Call], wrong: topic::wrong::Wrong) -> bool {
    let mut tally = topic::compare::Tally::default();
    topic::compare::with_the_rust(calls, Some(wrong), &mut tally);
    !tally.differences.is_empty()
}
