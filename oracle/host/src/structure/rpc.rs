//! Stand-in.

use super::{guid::GUID, sequence_number::SequenceNumber};

#[derive(Debug, Clone, Copy, PartialEq, Eq)]
pub struct SampleIdentity {
    pub writer_guid: GUID,
    pub sequence_number: SequenceNumber,
}
