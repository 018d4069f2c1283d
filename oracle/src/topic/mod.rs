//! The topic cache: docs/src against a plain reference of document 01's section.
//!
//! Document 01 has no program for it, so calls and answers have a format of their own (`format.rs`), which `topic_main` speaks.

pub mod compare;
pub mod format;
pub mod generate;
pub mod judge;
pub mod reference;
pub mod wrong;

/// What is kept; `None` in `Limits` is the default, depth 1.
#[derive(Debug, Clone, Copy, PartialEq, Eq)]
pub enum Keep {
    Last(i32),
    All,
}

#[derive(Debug, Clone, Copy, Default, PartialEq, Eq)]
pub struct Limits {
    pub keep: Option<Keep>,
    /// `None` is the default, 64.
    pub max_samples: Option<i32>,
}

/// "An entry has writer, sequence number, handle and payload length (u32)."
#[derive(Debug, Clone, PartialEq, Eq)]
pub struct Entry {
    pub key: u64,
    pub writer: [u8; 16],
    pub sequence: u64,
    pub handle: u32,
    pub length: u32,
}

/// In an add, the entry's `key` is the time that it comes with.
#[derive(Debug, Clone, PartialEq, Eq)]
pub enum Call {
    New(Limits),
    Update(Limits),
    Add(Entry),
    RemoveBefore(u64),
    Range(u64, u64),
}

#[derive(Debug, Clone, PartialEq, Eq)]
pub enum Reply {
    Ok,
    Key(u64),
    HeldAlready,
    Entries(Vec<Entry>),
    Refused(u8),
}

pub const PLACES: usize = 384;

/// Refusal 1 and refusal 2, which need no state.
pub fn refused(call: &Call) -> Option<u8> {
    match call {
        Call::Add(e) => (e.sequence == 0 || e.sequence >> 63 != 0).then_some(1),
        Call::New(l) | Call::Update(l) => (!in_bounds(l)).then_some(2),
        Call::RemoveBefore(_) | Call::Range(..) => None,
    }
}

/// "KeepAll, or KeepLast depth 1 to 256; max_samples 1 to 256"
fn in_bounds(l: &Limits) -> bool {
    let bounds = 1..=256;
    let keep = match l.keep {
        Some(Keep::Last(depth)) => bounds.contains(&depth),
        Some(Keep::All) | None => true,
    };
    keep && l.max_samples.is_none_or(|m| bounds.contains(&m))
}
