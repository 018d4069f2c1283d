//! Wrong variants of the reference, each one slip that could be made in good faith. The comparison must catch every one.

/// Who can catch a variant: the Rust, on the common ground and with the hooks; or only the reference, where the Rust is silent
/// (slots, refusals) or itself goes wrong.
#[derive(Debug, Clone, Copy, PartialEq, Eq)]
pub enum Caught {
    ByTheRust,
    ByTheReference,
}

/// An enum `Wrong` of variants, each with who catches it and what it does wrong. The topic cache's reference has one of its own.
macro_rules! variants {
    ($($name:ident $caught:ident $text:literal,)*) => {
        #[derive(Debug, Clone, Copy, PartialEq, Eq)]
        pub enum Wrong { $($name),* }

        impl Wrong {
            pub const ALL: &'static [(Wrong, $crate::wrong::Caught, &'static str)] =
                &[$((Wrong::$name, $crate::wrong::Caught::$caught, $text)),*];
        }
    };
}

pub(crate) use variants;

variants! {
    // The five of "Errors that look right".
    KeepByRawTime ByTheRust "keeping by raw time, so a repaired sample is evicted as oldest",
    CountOnlyUntaken ByTheRust "counting only untaken samples against d",
    SnapshotBeforeStep ByTheRust "taking the snapshot before the lifecycle step",
    SortByKeyAlone ByTheRust "sorting choices by key alone",
    MarkBeforeInfos ByTheRust "marking views before the infos are made",
    // Ranks.
    AbsoluteByLastAccepted ByTheRust "absolute rank by the last accepted sample, live or not",
    AbsoluteWithinInstance ByTheRust "absolute rank within the sample's own instance",
    AbsoluteNotNegative ByTheRust "absolute rank cut off at 0",
    GenerationByLastSample ByTheRust "generation rank by the last pair's sample, not its instance",
    GenerationByFirstPair ByTheRust "generation rank by the first pair's instance",
    SampleRankFromFront ByTheRust "sample rank counted from the front",
    // Views and marks.
    AccessedNeverFalls ByTheRust "last accessed total never falls (request 4's rule)",
    AccessedByInstance ByTheRust "last accessed becomes the instance's total, not the list's",
    AccessedByLastOfList ByTheRust "last accessed by the last sample of the list, not the greatest",
    NewFromEqual ByTheRust "New also at an equal total",
    AccessedStartsAtZero ByTheRust "last accessed total starts at 0",
    TakeMarksNoView ByTheRust "a take leaves the last accessed total as it was",
    ReadMarksOnlyLast ByTheRust "a read marks only the last sample of the list Read",
    // Lifecycle.
    DisposeTwiceCounts ByTheRust "a dispose of a disposed instance raises the count",
    NoWritersCountsDisposed ByTheRust "a rebirth after no writers raises the disposed count",
    NoWritersTurnsDisposed ByTheRust "a no-writers event changes a disposed instance",
    DisposeKeepsNoWriters ByTheRust "a dispose leaves an instance without writers in that state",
    InstanceStateOfSample ByTheRust "an info shows the state its own sample made",
    // Keys, keeping, choosing.
    EqualTimeStays ByTheRust "a time equal to the last key is given as key",
    RepairByTwo ByTheRust "a repaired key is the last key plus 2",
    KeepOneMore ByTheRust "d plus 1 samples are kept",
    KeepAllIgnoresLimit ByTheRust "mode 2 keeps without limit",
    MaskZeroChoosesAll ByTheRust "mask 0 chooses everything",
    MaskBySampleKind ByTheRust "the instance mask is tested on the sample's own kind",
    TiesByInstance ByTheRust "equal sequence numbers go by instance",
    NextFromEqual ByTheRust "next_key may give the key itself",
    NextOnlyWithLive ByTheRust "next_key passes over instances without live samples",
    EvictedThoughTaken ByTheRust "a taken sample is named as pushed out",
    // What the Rust cannot say.
    LastKeyOfLive ByTheReference "the last key is forgotten when its sample is taken (the Rust's own way)",
    SlotBeforeRoom ByTheReference "the slot is chosen before room is made",
    HighestSlot ByTheReference "the highest free slot is given",
    PairByKeyAlone ByTheReference "a pair is matched by key alone",
    RepeatAllowed ByTheReference "a pair may stand twice in a list",
    RefuseDisposeAtLimit ByTheReference "refusal 7 also for a dispose at the greatest total",
    FourBeforeSix ByTheReference "refusal 4 before refusal 6",
    FiveBeforeFour ByTheReference "refusal 5 before refusal 4",
    TenBeforeOne ByTheReference "refusal 10 before refusal 1",
    TwoBeforeTen ByTheReference "a second set-up outside its bounds gets 2",
    UnknownInstanceRefused ByTheReference "choosing within an unknown instance is refused",
    SixOnFreshCache ByTheReference "refusal 6 for time 2^64-1 on a fresh cache",
    RefusedAddTakesKey ByTheReference "an add refused with 4 uses up its key",
}
