//! Stand-in for the crate `enumflags2`: sets of the variants of an enum, as bits.

use std::{fmt, marker::PhantomData};

pub use enumflags2_derive::bitflags;

/// What the attribute `bitflags` writes down about an enum.
pub trait BitFlag: Copy {
    const ALL: u32;
    fn bit(self) -> u32;
}

pub struct BitFlags<T> {
    bits: u32,
    of: PhantomData<T>,
}

impl<T: BitFlag> BitFlags<T> {
    pub fn all() -> Self {
        Self::from_bits_truncate(T::ALL)
    }

    /// Bits that stand for no variant are dropped, as in the crate.
    pub fn from_bits_truncate(bits: u32) -> Self {
        Self {
            bits: bits & T::ALL,
            of: PhantomData,
        }
    }

    pub fn bits(self) -> u32 {
        self.bits
    }

    pub fn contains<B: Into<Self>>(self, other: B) -> bool {
        let other = other.into();
        self.bits & other.bits == other.bits
    }
}

impl<T: BitFlag> From<T> for BitFlags<T> {
    fn from(flag: T) -> Self {
        Self::from_bits_truncate(flag.bit())
    }
}

// By hand, because a derive would ask the same of T.
impl<T> Copy for BitFlags<T> {}

impl<T> Clone for BitFlags<T> {
    fn clone(&self) -> Self {
        *self
    }
}

impl<T> PartialEq for BitFlags<T> {
    fn eq(&self, other: &Self) -> bool {
        self.bits == other.bits
    }
}

impl<T> Eq for BitFlags<T> {}

impl<T> fmt::Debug for BitFlags<T> {
    fn fmt(&self, f: &mut fmt::Formatter<'_>) -> fmt::Result {
        write!(f, "BitFlags({:#b})", self.bits)
    }
}
