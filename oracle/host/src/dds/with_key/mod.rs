//! The crate's `dds::with_key`: one of the five files and stand-ins.

pub mod datasample;
#[allow(dead_code, clippy::all)]
pub mod datasample_cache;
pub mod datawriter;
