//! The crate's `dds`: two of the five files and stand-ins.

pub mod ddsdata;
pub mod key;
pub mod qos;
pub mod readcondition;
#[allow(dead_code, clippy::all)]
pub mod sampleinfo;
pub mod typedesc;
pub mod with_key;

/// Stand-in for the crate's error at creation; only this case is made by the five files.
#[derive(Debug)]
pub enum CreateError {
    Internal { reason: String },
}

pub type CreateResult<T> = Result<T, CreateError>;
