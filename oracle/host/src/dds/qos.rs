//! Stand-in for the QoS object: the two policies that the caches read.

pub mod policy {
    /// The order of the cases decides `max` in the topic cache: KeepAll stands above every depth, as in the crate.
    #[derive(Debug, Clone, Copy, PartialEq, Eq, PartialOrd, Ord)]
    pub enum History {
        KeepLast { depth: i32 },
        KeepAll,
    }

    #[derive(Debug, Clone, Copy, PartialEq, Eq)]
    pub struct ResourceLimits {
        pub max_samples: i32,
        pub max_instances: i32,
        pub max_samples_per_instance: i32,
    }
}

#[derive(Debug, Clone, Default)]
pub struct QosPolicies {
    pub history: Option<policy::History>,
    pub resource_limits: Option<policy::ResourceLimits>,
}

impl QosPolicies {
    /// Not the crate's: what document 01's modes 1 to 4 stand for. The limits that it does not name are out of reach.
    pub fn of_mode(mode: u8, keep: i32) -> Self {
        let per_instance = policy::ResourceLimits {
            max_samples: i32::MAX,
            max_instances: i32::MAX,
            max_samples_per_instance: keep,
        };
        Self {
            history: match mode {
                1 => Some(policy::History::KeepLast { depth: keep }),
                2 | 3 => Some(policy::History::KeepAll),
                _ => None,
            },
            resource_limits: (mode == 2).then_some(per_instance),
        }
    }

    pub fn history(&self) -> Option<policy::History> {
        self.history
    }

    pub fn resource_limits(&self) -> Option<policy::ResourceLimits> {
        self.resource_limits
    }
}
