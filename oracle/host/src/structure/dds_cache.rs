include!("../../../rustdds/src/structure/dds_cache.rs");

/// Ours: the topic cache, which the crate keeps to itself, behind a public name.
pub struct Topic(TopicCache);

impl Topic {
    pub fn new(qos: &QosPolicies) -> Self {
        Self(TopicCache::new(String::new(), TypeDesc, qos))
    }

    pub fn update_keep_limits(&mut self, qos: &QosPolicies) {
        self.0.update_keep_limits(qos);
    }

    pub fn add_change(&mut self, instant: &Timestamp, change: CacheChange) {
        self.0.add_change(instant, change);
    }

    pub fn remove_changes_before(&mut self, time: Timestamp) {
        self.0.remove_changes_before(time);
    }

    pub fn range(&self, start: Timestamp, end: Timestamp) -> Vec<(Timestamp, CacheChange)> {
        let found = self.0.get_changes_in_range_best_effort(start, end);
        found.map(|(t, c)| (t, c.clone())).collect()
    }

    pub fn last_added(&self) -> Timestamp {
        self.0.last_added_instant
    }

    pub fn held(&self) -> usize {
        self.0.changes.len()
    }
}
