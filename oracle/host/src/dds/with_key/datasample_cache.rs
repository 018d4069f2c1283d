include!("../../../../rustdds/src/dds/with_key/datasample_cache.rs");

/// Ours: one live sample as the cache holds it.
pub struct Live<K> {
    pub key: Timestamp,
    pub instance: K,
    pub source: Option<Timestamp>,
}

/// Ours: ways in for the oracle. The first four only pass on what the crate keeps to itself.
impl<D: Keyed> DataSampleCache<D> {
    pub fn hook_add(&mut self, change: DeserializedCacheChange<D>) {
        self.fill_from_deserialized_cache_change(change);
    }

    pub fn hook_read(&mut self, keys: &[(Timestamp, D::K)]) -> Vec<DataSample<&D>> {
        self.read_by_keys(keys)
    }

    pub fn hook_take(&mut self, keys: &[(Timestamp, D::K)]) -> Vec<DataSample<D>> {
        self.take_by_keys(keys)
    }

    pub fn hook_next_key(&self, key: &D::K) -> Option<D::K> {
        self.next_key(key)
    }

    pub fn hook_live(&self) -> Vec<Live<D::K>> {
        let each = self.datasamples.iter();
        each.map(|(ts, s)| Live {
            key: *ts,
            instance: s.key(),
            source: s.write_options.source_timestamp(),
        })
        .collect()
    }

    pub fn hook_last_live(&self) -> Option<Timestamp> {
        self.datasamples.last_key_value().map(|(ts, _)| *ts)
    }

    pub fn hook_live_under(&self, key: Timestamp) -> Option<D::K> {
        self.datasamples.get(&key).map(|s| s.key())
    }

    pub fn hook_live_count(&self) -> usize {
        self.datasamples.len()
    }

    pub fn hook_instance_count(&self) -> usize {
        self.instance_map.len()
    }

    pub fn hook_instance(&self, key: &D::K) -> Option<(InstanceState, NotAliveGenerationCounts)> {
        let found = self.instance_map.get(key);
        found.map(|i| (i.instance_state, i.latest_generation_available))
    }

    /// Document 01's own event, which the crate has not.
    pub fn hook_no_writers(&mut self, key: &D::K) {
        if let Some(i) = self.instance_map.get_mut(key) {
            if i.instance_state == InstanceState::Alive {
                i.instance_state = InstanceState::NotAliveNoWriters;
            }
        }
    }

    /// Counts near their limit, which no run reaches by rebirths.
    pub fn hook_seed_counts(&mut self, key: &D::K, counts: NotAliveGenerationCounts) {
        if let Some(i) = self.instance_map.get_mut(key) {
            i.latest_generation_available = counts;
        }
    }
}
