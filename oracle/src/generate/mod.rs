//! Sessions to compare on: random ones that aim at borders, all short ones, and damaged bytes.

pub mod corners;
pub mod damage;
pub mod lists;
pub mod profile;
pub mod random;
pub mod short;

use crate::{
    reference::Counts,
    session::{encode, Record},
};

/// A session's step. Seeding is no record: it reaches into the caches by a hook, so such a session cannot go to a program.
#[derive(Debug, Clone, PartialEq, Eq)]
pub enum Step {
    Record(Record),
    Seed(u64, Counts),
}

/// The session's records, unless it has a step that bytes cannot say.
pub fn records(steps: &[Step]) -> Option<Vec<Record>> {
    let each = steps.iter().map(|step| match step {
        Step::Record(record) => Some(record.clone()),
        Step::Seed(..) => None,
    });
    each.collect()
}

pub fn bytes(steps: &[Step]) -> Option<Vec<u8>> {
    records(steps).map(|r| encode(&r))
}
