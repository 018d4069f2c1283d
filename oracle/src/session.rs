//! Document 01's session format: bytes to records and back. No meaning yet: a record may hold any numbers.

use crate::frames;

/// (key, instance), as a list names a sample.
pub type Pair = (u64, u64);

#[derive(Debug, Clone, PartialEq, Eq)]
pub struct Add {
    pub instance: u64,
    pub writer: [u8; 16],
    pub sequence: u64,
    pub time: u64,
    pub kind: u8,
    pub handle: u32,
}

#[derive(Debug, Clone, Copy, PartialEq, Eq)]
pub struct SetUp {
    pub mode: u8,
    pub keep: i32,
    pub instances: u16,
}

/// Sample, view and instance mask.
pub type Masks = [u8; 3];

#[derive(Debug, Clone, PartialEq, Eq)]
pub enum Record {
    SetUp(SetUp),
    Add(Add),
    NoWriters(u64),
    Choose(Masks),
    ChooseWithin(u64, Masks),
    Read(Vec<Pair>),
    Take(Vec<Pair>),
    NextKey(u64),
}

/// What the reader finds next in the bytes.
#[derive(Debug, Clone, PartialEq, Eq)]
pub enum Item {
    Record(Record),
    /// A wrong length or operation: refused, and on.
    Bad,
    /// A missing or wrong version byte, or a cut-off record: refused, and the end.
    Stop,
}

pub fn items(bytes: &[u8]) -> Vec<Item> {
    let found = frames::records(bytes).into_iter();
    found
        .map(|body| match body {
            Some(body) => record(body).map_or(Item::Bad, Item::Record),
            None => Item::Stop,
        })
        .collect()
}

fn record(body: &[u8]) -> Option<Record> {
    let (&operation, mut f) = body.split_first()?;
    let f = &mut f;
    let found = match operation {
        0 => Record::SetUp(SetUp {
            mode: byte(f)?,
            keep: number(f, 4)? as u32 as i32,
            instances: number(f, 2)? as u16,
        }),
        1 => Record::Add(Add {
            instance: number(f, 8)?,
            writer: part(f, 16)?.try_into().ok()?,
            sequence: number(f, 8)?,
            time: number(f, 8)?,
            kind: byte(f)?,
            handle: number(f, 4)? as u32,
        }),
        2 => Record::NoWriters(number(f, 8)?),
        3 => Record::Choose(masks(f)?),
        4 => Record::ChooseWithin(number(f, 8)?, masks(f)?),
        5 => Record::Read(pairs(f)?),
        6 => Record::Take(pairs(f)?),
        7 => Record::NextKey(number(f, 8)?),
        _ => return None,
    };
    f.is_empty().then_some(found)
}

fn part<'a>(f: &mut &'a [u8], length: usize) -> Option<&'a [u8]> {
    let (head, tail) = f.split_at_checked(length)?;
    *f = tail;
    Some(head)
}

fn number(f: &mut &[u8], length: usize) -> Option<u64> {
    Some(frames::number(part(f, length)?))
}

fn byte(f: &mut &[u8]) -> Option<u8> {
    Some(part(f, 1)?[0])
}

fn masks(f: &mut &[u8]) -> Option<Masks> {
    part(f, 3)?.try_into().ok()
}

fn pairs(f: &mut &[u8]) -> Option<Vec<Pair>> {
    let count = number(f, 2)?;
    (0..count)
        .map(|_| Some((number(f, 8)?, number(f, 8)?)))
        .collect()
}

/// A whole session as bytes.
pub fn encode(records: &[Record]) -> Vec<u8> {
    frames::encode(records.iter().map(encode_record))
}

pub fn encode_record(record: &Record) -> Vec<u8> {
    let mut out = vec![operation(record)];
    match record {
        Record::SetUp(s) => {
            out.push(s.mode);
            out.extend(s.keep.to_be_bytes());
            out.extend(s.instances.to_be_bytes());
        }
        Record::Add(a) => {
            out.extend(a.instance.to_be_bytes());
            out.extend(a.writer);
            out.extend(a.sequence.to_be_bytes());
            out.extend(a.time.to_be_bytes());
            out.push(a.kind);
            out.extend(a.handle.to_be_bytes());
        }
        Record::NoWriters(instance) | Record::NextKey(instance) => {
            out.extend(instance.to_be_bytes())
        }
        Record::Choose(masks) => out.extend(masks),
        Record::ChooseWithin(instance, masks) => {
            out.extend(instance.to_be_bytes());
            out.extend(masks);
        }
        Record::Read(list) | Record::Take(list) => {
            out.extend((list.len() as u16).to_be_bytes());
            for (key, instance) in list {
                out.extend(key.to_be_bytes());
                out.extend(instance.to_be_bytes());
            }
        }
    }
    out
}

fn operation(record: &Record) -> u8 {
    match record {
        Record::SetUp(_) => 0,
        Record::Add(_) => 1,
        Record::NoWriters(_) => 2,
        Record::Choose(_) => 3,
        Record::ChooseWithin(..) => 4,
        Record::Read(_) => 5,
        Record::Take(_) => 6,
        Record::NextKey(_) => 7,
    }
}

/// Session S1 of document 01.
pub fn s1() -> Vec<Record> {
    let add = |instance, sequence, time, kind, handle| {
        Record::Add(Add {
            instance,
            writer: [0; 16],
            sequence,
            time,
            kind,
            handle,
        })
    };
    vec![
        Record::SetUp(SetUp {
            mode: 1,
            keep: 2,
            instances: 4,
        }),
        add(7, 1, 100, 1, 11),
        add(9, 1, 100, 1, 12),
        add(7, 2, 90, 2, 13),
        add(7, 3, 200, 1, 14),
        Record::Choose([3, 3, 7]),
        Record::Read(vec![(101, 9), (102, 7), (200, 7)]),
        Record::Read(vec![(102, 7)]),
        Record::Choose([3, 1, 7]),
        Record::Take(vec![(200, 7)]),
        add(7, 4, 150, 1, 15),
        Record::NextKey(7),
        Record::NextKey(9),
        Record::NoWriters(8),
    ]
}
