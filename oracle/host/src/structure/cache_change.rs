include!("../../../rustdds/src/structure/cache_change.rs");
