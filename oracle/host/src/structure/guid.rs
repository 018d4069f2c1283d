//! Stand-in for a writer's name: 16 bytes, ordered as bytes (the crate: 12 and 4, in the same order).

#[derive(Debug, Clone, Copy, Default, PartialEq, Eq, PartialOrd, Ord, Hash)]
pub struct GUID(pub [u8; 16]);
