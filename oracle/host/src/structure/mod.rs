//! The crate's `structure`: two of the five files and stand-ins.

#[allow(dead_code, clippy::all)]
pub mod cache_change;
#[allow(dead_code, clippy::all)]
pub mod dds_cache;
pub mod guid;
pub mod rpc;
pub mod sequence_number;
pub mod time;
