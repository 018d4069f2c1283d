//! docs/src's `TopicCache` as judge.

use rustdds::{
    dds::{
        ddsdata::DDSData,
        qos::{
            policy::{History, ResourceLimits},
            QosPolicies,
        },
        with_key::datawriter::WriteOptions,
    },
    structure::{
        cache_change::CacheChange, dds_cache::Topic, sequence_number::SequenceNumber,
        time::Timestamp,
    },
    GUID,
};

use super::{refused, Call, Entry, Keep, Limits, Reply, PLACES};

#[derive(Default)]
pub struct Judge {
    topic: Option<Topic>,
}

impl Judge {
    /// "For the topic cache: no refusals and never 384 held." With the last key used up every add counts as outside: whether it is
    /// refused with 6 or held already depends on its collection.
    pub fn outside(&self, call: &Call) -> bool {
        let six = self.last_added() == u64::MAX && matches!(call, Call::Add(_));
        let full = self.topic.as_ref().is_some_and(|t| t.held() >= PLACES);
        let ten = self.topic.is_none() && !matches!(call, Call::New(_));
        refused(call).is_some() || ten || six || full
    }

    fn last_added(&self) -> u64 {
        let topic = self.topic.as_ref();
        topic.map_or(0, |t| t.last_added().to_ticks())
    }

    pub fn step(&mut self, call: &Call) -> Reply {
        if let Call::New(limits) = call {
            self.topic = Some(Topic::new(&qos(limits)));
            return Reply::Ok;
        }
        let before = self.last_added();
        let Some(topic) = &mut self.topic else {
            return Reply::Refused(10);
        };
        match call {
            Call::New(_) => Reply::Ok,
            Call::Update(limits) => {
                topic.update_keep_limits(&qos(limits));
                Reply::Ok
            }
            Call::Add(e) => {
                topic.add_change(&Timestamp::from_ticks(e.key), change(e));
                // The crate answers nothing; a held pair leaves the last key as it was.
                let key = topic.last_added().to_ticks();
                if key == before {
                    Reply::HeldAlready
                } else {
                    Reply::Key(key)
                }
            }
            Call::RemoveBefore(time) => {
                topic.remove_changes_before(Timestamp::from_ticks(*time));
                Reply::Ok
            }
            Call::Range(start, end) => {
                let found = topic.range(Timestamp::from_ticks(*start), Timestamp::from_ticks(*end));
                Reply::Entries(found.iter().map(|(key, c)| entry(*key, c)).collect())
            }
        }
    }
}

fn qos(limits: &Limits) -> QosPolicies {
    QosPolicies {
        history: limits.keep.map(|k| match k {
            Keep::Last(depth) => History::KeepLast { depth },
            Keep::All => History::KeepAll,
        }),
        resource_limits: limits.max_samples.map(|max_samples| ResourceLimits {
            max_samples,
            max_instances: 1,
            max_samples_per_instance: 1,
        }),
    }
}

fn change(e: &Entry) -> CacheChange {
    CacheChange::new(
        GUID(e.writer),
        SequenceNumber::from(e.sequence as i64),
        WriteOptions::default(),
        DDSData {
            handle: e.handle,
            length: e.length,
        },
    )
}

fn entry(key: Timestamp, c: &CacheChange) -> Entry {
    Entry {
        key: key.to_ticks(),
        writer: c.writer_guid.0,
        sequence: i64::from(c.sequence_number) as u64,
        handle: c.data_value.handle,
        length: c.data_value.length,
    }
}
