//! Stand-in for times: 64-bit ticks of 2^-32 seconds (the crate holds seconds and fraction, in the same order).

use std::ops::Sub;

#[derive(Debug, Clone, Copy, Default, PartialEq, Eq, PartialOrd, Ord, Hash)]
pub struct Timestamp(u64);

impl Timestamp {
    pub const ZERO: Self = Self(0);

    pub fn from_ticks(ticks: u64) -> Self {
        Self(ticks)
    }

    pub fn to_ticks(self) -> u64 {
        self.0
    }

    /// A fixed hour, so that a run can be repeated. It decides only which payloads are copied to a new buffer.
    pub fn now() -> Self {
        Self(1_000_000 << 32)
    }
}

impl Sub<Duration> for Timestamp {
    type Output = Self;
    fn sub(self, span: Duration) -> Self {
        Self(self.0.saturating_sub(span.0))
    }
}

#[derive(Debug, Clone, Copy)]
pub struct Duration(u64);

impl Duration {
    pub const fn from_secs(seconds: i32) -> Self {
        Self((seconds as u64) << 32)
    }
}
