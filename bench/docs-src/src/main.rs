//! The load of SPEED-load.md on docs/src, unchanged: what the crate itself costs, without the oracle's bookkeeping.

use load::{Add, Added, Engine, Info};
use rustdds::{
    dds::{
        key::Keyed,
        qos::QosPolicies,
        sampleinfo::SampleInfo,
        with_key::{
            datasample::{DeserializedCacheChange, Sample},
            datasample_cache::DataSampleCache,
            datawriter::WriteOptions,
        },
    },
    structure::{sequence_number::SequenceNumber, time::Timestamp},
    GUID,
};

struct Reading {
    instance: u64,
}

impl Keyed for Reading {
    type K = u64;
    fn key(&self) -> u64 {
        self.instance
    }
}

struct DocsSrc(DataSampleCache<Reading>);

impl Engine for DocsSrc {
    fn set_up(mode: u8, keep: i32, _: u16) -> Option<Self> {
        let qos = QosPolicies::of_mode(mode, keep);
        Some(Self(DataSampleCache::new(qos)))
    }

    fn add(&mut self, a: &Add) -> Option<Added> {
        self.0.hook_add(DeserializedCacheChange {
            receive_instant: Timestamp::from_ticks(a.time),
            writer_guid: GUID(a.writer),
            sequence_number: SequenceNumber::from(a.sequence as i64),
            // The handle goes along as source time, as in the oracle.
            write_options: WriteOptions::at(Timestamp::from_ticks(a.handle.into())),
            sample: if a.kind == 1 {
                Sample::Value(Reading {
                    instance: a.instance,
                })
            } else {
                Sample::Dispose(a.instance)
            },
        });
        // Nothing is taken, so the sample just added is the latest live one.
        let key = self.0.hook_last_live()?.to_ticks();
        Some(Added { key, place: None })
    }

    fn read(&mut self, list: &[(u64, u64)], out: &mut [Info]) -> Option<usize> {
        let keys: Vec<(Timestamp, u64)> = list
            .iter()
            .map(|(key, name)| (Timestamp::from_ticks(*key), *name))
            .collect();
        let got = self.0.hook_read(&keys);
        for (place, d) in out.iter_mut().zip(&got) {
            let kind = match d.value {
                Sample::Value(_) => 1,
                Sample::Dispose(_) => 2,
            };
            *place = info(&d.sample_info, kind);
        }
        Some(got.len())
    }
}

fn info(i: &SampleInfo, kind: u8) -> Info {
    Info {
        handle: i.source_timestamp().map_or(0, |t| t.to_ticks() as u32),
        kind,
        sample_state: i.sample_state() as u8,
        view_state: i.view_state() as u8,
        instance_state: i.instance_state() as u8,
        disposed_count: i.disposed_generation_count(),
        no_writers_count: i.no_writers_generation_count(),
        sample_rank: i.sample_rank(),
        generation_rank: i.generation_rank(),
        absolute_generation_rank: i.absolute_generation_rank(),
        writer: i.writer_guid().0,
        sequence: i64::from(i.sample_identity().sequence_number) as u64,
    }
}

fn main() -> std::io::Result<()> {
    load::main::<DocsSrc>()
}
