//! Wrong variants of the topic cache's reference.

use crate::wrong::variants;

variants! {
    SmallBelow1024 ByTheRust "1,024 bytes already count as the middle range",
    MiddleBelow65536 ByTheRust "65,536 bytes already collect always",
    StepOf16 ByTheRust "the middle range collects at multiples of 16",
    HeldBeforeCollection ByTheRust "the held test comes before the collection",
    FirstKeyIsTime ByTheRust "the first key is its time, so 0 gets key 0",
    UpdateSets ByTheRust "an update may lower",
    KeepAllBelowDepth ByTheRust "KeepAll stands below every depth",
    MaxNotRaised ByTheRust "max_samples is not raised to the depth",
    DefaultMax256 ByTheRust "the default max_samples is 256",
    KeepAllMayToOne ByTheRust "KeepAll may drop down to one entry",
    RemoveUpToTime ByTheRust "removal drops keys up to t, not below it",
    RemoveIgnoresMay ByTheRust "removal drops all keys below t",
    MustOnlyBelowTime ByTheRust "what must go goes only below t",
    RangeFromStart ByTheRust "the range has the key at start",
    RangeBelowEnd ByTheRust "the range lacks the key at end",
    RangeSwapped ByTheRust "with start above end the range is turned round",
    HeldBySequenceAlone ByTheRust "held is judged by the sequence number alone",
    FullWithoutCollection ByTheReference "a full table is not collected",
    SixLeavesCollection ByTheReference "refusal 6 leaves the collection standing",
    SixBeforeHeld ByTheReference "refusal 6 before the held test",
}
