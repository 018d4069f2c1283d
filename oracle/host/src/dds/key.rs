//! Stand-in for the traits of keyed data. The crate asks more of a key (serialising, hashing to 16 bytes), which no cache uses.

use std::hash::Hash;

pub trait Key: Clone + Ord + Hash {}

impl Key for u64 {}

pub trait Keyed {
    type K: Key;
    fn key(&self) -> Self::K;
}
