//! Answers, as document 01's session program prints them.

use std::fmt::Write;

use crate::{frames::hex, session::Pair};

#[derive(Debug, Clone, PartialEq, Eq)]
pub struct Info {
    pub handle: u32,
    pub kind: u8,
    pub sample_state: u8,
    pub view_state: u8,
    pub instance_state: u8,
    pub disposed_count: i32,
    pub no_writers_count: i32,
    pub sample_rank: i64,
    pub generation_rank: i64,
    pub absolute_generation_rank: i64,
    pub writer: [u8; 16],
    pub sequence: u64,
}

#[derive(Debug, Clone, PartialEq, Eq)]
pub enum Answer {
    Ok,
    /// The Rust has no slots, so the judge leaves that place open.
    Added {
        key: u64,
        slot: Option<u16>,
        evicted: Option<u32>,
    },
    Selected(Vec<Pair>),
    Samples(Vec<Info>),
    Next(Option<u64>),
    Refused(u8),
    /// The Rust stopped, or did what no answer of document 01 can say. Only outside the common ground.
    Astray(String),
}

impl Answer {
    /// Equal, where an open slot agrees with every slot.
    pub fn agrees(&self, other: &Self) -> bool {
        match (self, other) {
            (
                Answer::Added {
                    key: k1,
                    slot: s1,
                    evicted: e1,
                },
                Answer::Added {
                    key: k2,
                    slot: s2,
                    evicted: e2,
                },
            ) => k1 == k2 && e1 == e2 && (s1.is_none() || s2.is_none() || s1 == s2),
            _ => self == other,
        }
    }

    /// A line for each info, its writer and its sequence number: what `full_session` prints behind the lines of an answer.
    pub fn sources(&self) -> String {
        match self {
            Answer::Samples(infos) => infos.iter().map(|i| i.source() + "\n").collect(),
            _ => String::new(),
        }
    }

    /// The lines. `full` adds writer and sequence number to an info, which the session program does not print.
    pub fn lines(&self, full: bool) -> String {
        let mut out = String::new();
        match self {
            Answer::Ok => out.push_str("ok\n"),
            Answer::Added { key, slot, evicted } => {
                let slot = slot.map_or("?".to_string(), |s| s.to_string());
                let evicted = evicted.map_or("-".to_string(), |h| h.to_string());
                let _ = writeln!(out, "key {key} slot {slot} evicted {evicted}");
            }
            Answer::Selected(list) => {
                let _ = writeln!(out, "selected {}", list.len());
                for (key, instance) in list {
                    let _ = writeln!(out, "{key} {instance}");
                }
            }
            Answer::Samples(infos) => {
                let _ = writeln!(out, "samples {}", infos.len());
                for info in infos {
                    info.line(full, &mut out);
                }
            }
            Answer::Next(Some(key)) => {
                let _ = writeln!(out, "next {key}");
            }
            Answer::Next(None) => out.push_str("next -\n"),
            Answer::Refused(number) => {
                let _ = writeln!(out, "refused {number}");
            }
            Answer::Astray(what) => {
                let _ = writeln!(out, "astray: {what}");
            }
        }
        out
    }
}

impl Info {
    fn line(&self, full: bool, out: &mut String) {
        let _ = write!(
            out,
            "{} {} {} {} {} {} {} {} {} {}",
            self.handle,
            self.kind,
            self.sample_state,
            self.view_state,
            self.instance_state,
            self.disposed_count,
            self.no_writers_count,
            self.sample_rank,
            self.generation_rank,
            self.absolute_generation_rank
        );
        if full {
            let _ = write!(out, " {}", self.source());
        }
        out.push('\n');
    }

    /// Writer and sequence number.
    fn source(&self) -> String {
        format!("{} {}", hex(&self.writer), self.sequence)
    }
}
