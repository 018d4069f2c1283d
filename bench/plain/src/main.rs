//! The load of SPEED-load.md on the plain cache.

use load::{Add, Added, Engine, Info};
use plain::Cache;

struct Plain(Box<Cache>);

impl Engine for Plain {
    fn set_up(mode: u8, keep: i32, instances: u16) -> Option<Self> {
        let cache = Cache::new(mode, keep, instances).ok()?;
        Some(Self(Box::new(cache)))
    }

    fn add(&mut self, a: &Add) -> Option<Added> {
        self.0.add(a).ok()
    }

    fn read(&mut self, list: &[(u64, u64)], out: &mut [Info]) -> Option<usize> {
        self.0.read(list, out).ok()
    }
}

fn main() -> std::io::Result<()> {
    load::main::<Plain>()
}
