//! Stand-in for the serialised payload: its length, and the handle by which we know it again.

#[derive(Debug, Clone, PartialEq, Eq)]
pub struct DDSData {
    pub handle: u32,
    pub length: u32,
}

impl DDSData {
    pub fn payload_size(&self) -> usize {
        self.length as usize
    }

    /// The crate copies the bytes out of the receive buffer here; there are none.
    pub fn reallocate(&mut self) {}
}
