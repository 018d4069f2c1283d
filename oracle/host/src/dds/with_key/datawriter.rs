//! Stand-in for what a writer stamps on a sample.

use crate::structure::{rpc::SampleIdentity, time::Timestamp};

#[derive(Debug, Clone, Default, PartialEq, Eq)]
pub struct WriteOptions {
    source_timestamp: Option<Timestamp>,
}

impl WriteOptions {
    /// The oracle sends a sample's handle along as its source time: a dispose has no other place for one in the crate.
    pub fn at(source: Timestamp) -> Self {
        Self {
            source_timestamp: Some(source),
        }
    }

    pub fn source_timestamp(&self) -> Option<Timestamp> {
        self.source_timestamp
    }

    pub fn related_sample_identity(&self) -> Option<SampleIdentity> {
        None
    }
}
