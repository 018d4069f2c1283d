//! Stand-in for sequence numbers: an i64 that starts at 1.

#[derive(Debug, Clone, Copy, PartialEq, Eq, PartialOrd, Ord, Hash)]
pub struct SequenceNumber(i64);

impl SequenceNumber {
    pub fn zero() -> Self {
        Self(0)
    }

    pub fn plus_1(&self) -> Self {
        Self(self.0 + 1)
    }
}

/// The crate's default is the first number, 1.
impl Default for SequenceNumber {
    fn default() -> Self {
        Self(1)
    }
}

impl From<i64> for SequenceNumber {
    fn from(number: i64) -> Self {
        Self(number)
    }
}

impl From<SequenceNumber> for i64 {
    fn from(number: SequenceNumber) -> Self {
        number.0
    }
}
