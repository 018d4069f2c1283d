//! Stand-in.

pub mod constant {
    /// Of no effect here: it is read for samples withheld from reliable readers, and no marker is ever set.
    pub const MAX_WITHHELD_BYTES_PER_TOPIC: usize = 64 * 1024 * 1024;
}
