//! Stand-in for the samples that go into and come out of the cache.

use crate::{
    dds::{key::Keyed, sampleinfo::SampleInfo, with_key::datawriter::WriteOptions},
    structure::{guid::GUID, sequence_number::SequenceNumber, time::Timestamp},
};

#[derive(Debug, Clone, PartialEq, Eq)]
pub enum Sample<D, K> {
    Value(D),
    Dispose(K),
}

pub struct DeserializedCacheChange<D: Keyed> {
    pub receive_instant: Timestamp,
    pub writer_guid: GUID,
    pub sequence_number: SequenceNumber,
    pub write_options: WriteOptions,
    pub sample: Sample<D, D::K>,
}

/// The crate's has two more type parameters resolved by a trait; the cache only makes it from these two.
pub struct DataSample<D: Kept> {
    pub sample_info: SampleInfo,
    pub value: Sample<D, D::Key>,
}

/// So that `DataSample<D>` and `DataSample<&D>` both know the key type of a dispose.
pub trait Kept {
    type Key;
}

impl<D: Keyed> Kept for D {
    type Key = D::K;
}

impl<D: Kept> DataSample<D> {
    pub fn new(sample_info: SampleInfo, value: Sample<D, D::Key>) -> Self {
        Self { sample_info, value }
    }
}

impl<D: Keyed> Keyed for &D {
    type K = D::K;
    fn key(&self) -> D::K {
        (*self).key()
    }
}
