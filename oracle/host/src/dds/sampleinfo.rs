include!("../../../rustdds/src/dds/sampleinfo.rs");
