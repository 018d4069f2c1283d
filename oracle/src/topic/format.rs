//! A format for a program over the topic cache. It is ours, after the session format: version byte 1, then records of a two-byte
//! big-endian length (`frames.rs`), an operation byte and big-endian fields.
//!
//! 0 new and 1 update: keep (0 default, 1 KeepLast, 2 KeepAll), depth (i32), whether max_samples is given (0 or 1), max_samples (i32).
//! 2 add: writer (16), sequence number (8), handle (4), payload length (4), time (8). 3 remove before: time. 4 range: start, end.
//! Answers: `ok`, `key K`, `held already`, `refused N`, or `entries N` and for each a line: key, writer (32 hex digits), sequence
//! number, handle, length. A call before the first accepted new is refused with 10; a new starts afresh.
//! As in the session format, a wrong length or operation is refused with 1, and so is a byte that names no keep or is neither 0 nor 1;
//! a missing or wrong version byte or a cut-off record is refused with 1 and ends the session. 1 comes first, then 10, then the rest.

use std::fmt::Write;

use super::{Call, Entry, Keep, Limits, Reply};
use crate::frames::{self, hex, number};

pub fn encode(calls: &[Call]) -> Vec<u8> {
    frames::encode(calls.iter().map(record))
}

pub fn record(call: &Call) -> Vec<u8> {
    let mut out = Vec::new();
    match call {
        Call::New(l) => limits(0, l, &mut out),
        Call::Update(l) => limits(1, l, &mut out),
        Call::Add(e) => {
            out.push(2);
            out.extend(e.writer);
            out.extend(e.sequence.to_be_bytes());
            out.extend(e.handle.to_be_bytes());
            out.extend(e.length.to_be_bytes());
            out.extend(e.key.to_be_bytes());
        }
        Call::RemoveBefore(time) => {
            out.push(3);
            out.extend(time.to_be_bytes());
        }
        Call::Range(start, end) => {
            out.push(4);
            out.extend(start.to_be_bytes());
            out.extend(end.to_be_bytes());
        }
    }
    out
}

fn limits(operation: u8, l: &Limits, out: &mut Vec<u8>) {
    let (keep, depth) = match l.keep {
        None => (0, 0),
        Some(Keep::Last(depth)) => (1, depth),
        Some(Keep::All) => (2, 0),
    };
    out.extend([operation, keep]);
    out.extend(depth.to_be_bytes());
    out.push(l.max_samples.is_some().into());
    out.extend(l.max_samples.unwrap_or(0).to_be_bytes());
}

/// The calls in the bytes; `None` stands for what is refused with 1. Nothing follows a wrong version or a cut-off record.
pub fn decode(bytes: &[u8]) -> Vec<Option<Call>> {
    let records = frames::records(bytes).into_iter();
    records.map(|body| call(body?)).collect()
}

fn call(body: &[u8]) -> Option<Call> {
    match (body.first()?, body.len()) {
        (0, 11) => Some(Call::New(limits_in(body)?)),
        (1, 11) => Some(Call::Update(limits_in(body)?)),
        (2, 41) => Some(Call::Add(Entry {
            writer: body[1..17].try_into().ok()?,
            sequence: number(&body[17..25]),
            handle: number(&body[25..29]) as u32,
            length: number(&body[29..33]) as u32,
            key: number(&body[33..]),
        })),
        (3, 9) => Some(Call::RemoveBefore(number(&body[1..]))),
        (4, 17) => Some(Call::Range(number(&body[1..9]), number(&body[9..]))),
        _ => None,
    }
}

fn limits_in(body: &[u8]) -> Option<Limits> {
    let signed = |bytes: &[u8]| number(bytes) as u32 as i32;
    Some(Limits {
        keep: match body[1] {
            0 => None,
            1 => Some(Keep::Last(signed(&body[2..6]))),
            2 => Some(Keep::All),
            _ => return None,
        },
        max_samples: match body[6] {
            0 => None,
            1 => Some(signed(&body[7..])),
            _ => return None,
        },
    })
}

pub fn lines(reply: &Reply) -> String {
    match reply {
        Reply::Ok => "ok\n".to_string(),
        Reply::Key(key) => format!("key {key}\n"),
        Reply::HeldAlready => "held already\n".to_string(),
        Reply::Refused(number) => format!("refused {number}\n"),
        Reply::Entries(entries) => {
            let mut out = format!("entries {}\n", entries.len());
            for e in entries {
                let (key, writer) = (e.key, hex(&e.writer));
                let _ = writeln!(
                    out,
                    "{key} {writer} {} {} {}",
                    e.sequence, e.handle, e.length
                );
            }
            out
        }
    }
}
