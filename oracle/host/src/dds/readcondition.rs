include!("../../../rustdds/src/dds/readcondition.rs");

impl ReadCondition {
    /// Ours: a test constructor for custom masks, which the crate has no way to make. Document 01's numbers are the crate's bits.
    pub fn of_masks(sample: u8, view: u8, instance: u8) -> Self {
        Self {
            sample_state_mask: BitFlags::from_bits_truncate(sample.into()),
            view_state_mask: BitFlags::from_bits_truncate(view.into()),
            instance_state_mask: BitFlags::from_bits_truncate(instance.into()),
        }
    }
}
