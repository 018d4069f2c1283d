//! `plain-session < SESSION`: document 01's session program over the plain cache.

use std::io::{self, Read, Write};

use load::Info;
use oracle::{
    answer::{self, Answer},
    session::{items, Item, Record},
};
use plain::{Cache, Masks, SLOTS};

fn main() -> io::Result<()> {
    let mut bytes = Vec::new();
    io::stdin().read_to_end(&mut bytes)?;
    let mut out = io::stdout().lock();
    let mut cache = None;
    for item in items(&bytes) {
        let answer = match item {
            Item::Record(record) => step(&mut cache, &record),
            Item::Bad | Item::Stop => Err(1),
        };
        let answer = answer.unwrap_or_else(Answer::Refused);
        out.write_all(answer.lines(false).as_bytes())?;
    }
    Ok(())
}

fn step(state: &mut Option<Box<Cache>>, record: &Record) -> Result<Answer, u8> {
    if let Record::SetUp(s) = record {
        if state.is_some() {
            return Err(10);
        }
        *state = Some(Box::new(Cache::new(s.mode, s.keep, s.instances)?));
        return Ok(Answer::Ok);
    }
    let Some(cache) = state else {
        // "1 comes first everywhere"; an empty cache tells a bad record from a good one.
        let mut empty = Some(Box::new(Cache::new(4, 0, 1)?));
        return match step(&mut empty, record) {
            Err(1) => Err(1),
            _ => Err(10),
        };
    };
    call(cache, record)
}

fn call(cache: &mut Cache, record: &Record) -> Result<Answer, u8> {
    let mut infos = [Info::default(); SLOTS];
    Ok(match record {
        Record::SetUp(_) => Answer::Ok,
        Record::Add(a) => added(cache.add(&load::Add {
            instance: a.instance,
            writer: a.writer,
            sequence: a.sequence,
            time: a.time,
            kind: a.kind,
            handle: a.handle,
        })?),
        Record::NoWriters(name) => {
            cache.no_writers(*name)?;
            Answer::Ok
        }
        Record::Choose(m) => selected(cache, None, *m)?,
        Record::ChooseWithin(name, m) => selected(cache, Some(*name), *m)?,
        Record::Read(list) => {
            let count = cache.read(list, &mut infos)?;
            samples(&infos[..count])
        }
        Record::Take(list) => {
            let count = cache.take(list, &mut infos)?;
            samples(&infos[..count])
        }
        Record::NextKey(name) => Answer::Next(cache.next_key(*name)),
    })
}

fn selected(cache: &Cache, within: Option<u64>, masks: Masks) -> Result<Answer, u8> {
    let mut pairs = [(0, 0); SLOTS];
    let count = cache.choose(within, masks, &mut pairs)?;
    Ok(Answer::Selected(pairs[..count].to_vec()))
}

fn added(a: load::Added) -> Answer {
    Answer::Added {
        key: a.key,
        slot: a.place.map(|p| p.slot),
        evicted: a.place.and_then(|p| p.evicted),
    }
}

fn samples(infos: &[Info]) -> Answer {
    let each = infos.iter();
    Answer::Samples(
        each.map(|i| answer::Info {
            handle: i.handle,
            kind: i.kind,
            sample_state: i.sample_state,
            view_state: i.view_state,
            instance_state: i.instance_state,
            disposed_count: i.disposed_count,
            no_writers_count: i.no_writers_count,
            sample_rank: i.sample_rank.into(),
            generation_rank: i.generation_rank.into(),
            absolute_generation_rank: i.absolute_generation_rank.into(),
            writer: i.writer,
            sequence: i.sequence,
        })
        .collect(),
    )
}
