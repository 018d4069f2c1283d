//! The five files of rustdds 0.15.1 that document 01 names, compiled byte for byte from `../rustdds`.
//!
//! They say `crate::..`, so this crate has the module tree of rustdds. A module is either one of the five files, drawn in by
//! `include!` (a formatter does not follow that, so the copy stays as it is), or a stand-in that has what the five ask for.
//! What stands below an `include!` is ours: it sits in the same module only to reach private things.

pub mod dds;
pub mod rtps;
pub mod structure;

pub use structure::{guid::GUID, time::Duration};

mod result {
    /// Stand-in: the crate's macro also logs.
    macro_rules! create_error_internal {
        ($($arg:tt)*) => {
            Err(CreateError::Internal { reason: format!($($arg)*) })
        };
    }
    pub(crate) use create_error_internal;
}
pub(crate) use result::create_error_internal;

pub mod with_key {
    pub use crate::dds::with_key::{datasample::*, datawriter::*};
}
