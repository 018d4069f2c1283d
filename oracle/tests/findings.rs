//! What docs/src does outside the common ground, with the smallest inputs (docs/DIFFERENCES.md); two are document 01's examples.

use oracle::{
    answer::Answer,
    generate::corners::{
        add, dispose, late_at_depth_1, late_at_depth_2, late_evicts_other, late_other_instance,
        set_up, ANY,
    },
    judge::{Judge, Outside},
    reference::{Counts, Reference},
    session::Record,
    topic,
};

/// The answers of docs/src and of the reference, and the number of the first record outside the ground with its reason.
fn both(records: &[Record]) -> (Vec<Answer>, Vec<Answer>, Option<(usize, Outside)>) {
    let mut judge = Judge::default();
    let mut reference = Reference::default();
    let mut first = None;
    let mut theirs = Vec::new();
    for (n, record) in records.iter().enumerate() {
        first = first.or(judge.outside(record).map(|why| (n, why)));
        theirs.push(judge.step_anyway(record));
    }
    let ours = records.iter().map(|r| reference.step(r)).collect();
    (theirs, ours, first)
}

fn added(answer: &Answer) -> Option<(u64, Option<u32>)> {
    match answer {
        Answer::Added { key, evicted, .. } => Some((*key, *evicted)),
        _ => None,
    }
}

#[test]
fn the_rust_drops_the_new_sample() {
    let (theirs, ours, left) = both(&late_at_depth_1());
    assert_eq!(left, Some((3, Outside::LateAdd)));
    assert!(matches!(theirs[3], Answer::Astray(_)), "{:?}", theirs[3]);
    assert_eq!(theirs[4], Answer::Selected(vec![]));
    assert_eq!(added(&ours[3]), Some((11, None)));
    assert_eq!(ours[4], Answer::Selected(vec![(11, 7)]));
}

#[test]
fn the_rust_offers_a_sample_under_another_instance() {
    let (theirs, ours, left) = both(&late_other_instance());
    assert_eq!(left, Some((3, Outside::LateAdd)));
    assert_eq!(added(&theirs[3]), Some((10, None)));
    assert_eq!(theirs[4], Answer::Selected(vec![(10, 7)]));
    assert_eq!(added(&ours[3]), Some((11, None)));
    assert_eq!(ours[4], Answer::Selected(vec![]));
    assert_eq!(ours[5], Answer::Selected(vec![(11, 9)]));
}

#[test]
fn the_rust_evicts_another_instance() {
    let (theirs, ours, left) = both(&late_evicts_other());
    assert_eq!(left, Some((3, Outside::LateAdd)));
    assert_eq!(added(&theirs[4]), Some((20, Some(2))));
    assert_eq!(theirs[5], Answer::Selected(vec![(20, 7)]));
    assert_eq!(added(&ours[4]), Some((20, None)));
    assert_eq!(ours[5], Answer::Selected(vec![(11, 9), (20, 7)]));
}

#[test]
fn the_rust_loses_a_late_sample() {
    let (theirs, ours, left) = both(&late_at_depth_2());
    assert_eq!(left, Some((4, Outside::LateAdd)));
    assert_eq!(added(&theirs[4]), Some((15, Some(1))));
    // The add at 16 pushes out the one at 15, while the taken 20 keeps its place.
    assert_eq!(added(&theirs[5]), Some((16, Some(3))));
    assert_eq!(theirs[6], Answer::Selected(vec![(16, 7)]));
    assert_eq!(ours[6], Answer::Selected(vec![(21, 7), (22, 7)]));
}

fn is_astray(answer: &Answer) -> bool {
    matches!(answer, Answer::Astray(_))
}

/// Refusal 6: the crate's key wraps round to 0.
#[test]
fn the_rust_wraps_the_greatest_key() {
    let records = [
        set_up(1, 2, 1),
        add(7, 1, u64::MAX),
        add(7, 2, 5),
        Record::Choose(ANY),
    ];
    let (theirs, ours, left) = both(&records);
    assert_eq!(left, Some((2, Outside::Refusal)));
    assert_eq!(added(&theirs[2]), Some((0, None)));
    assert_eq!(theirs[3], Answer::Selected(vec![(u64::MAX, 7), (0, 7)]));
    assert_eq!(ours[2], Answer::Refused(6));
}

/// Refusal 8: the crate panics on a dead pair and on a repeated one in a take; a repeated one in a read it shows twice, the
/// second time as Read; a live key under another instance it shows with that instance's states.
#[test]
fn the_rust_on_bad_lists() {
    let start = [
        set_up(1, 2, 2),
        add(7, 1, 10),
        add(9, 2, 20),
        dispose(9, 3, 30),
    ];
    let with = |last: Record| {
        let mut records = start.to_vec();
        records.push(last);
        let (theirs, ours, left) = both(&records);
        assert_eq!(left, Some((4, Outside::Refusal)));
        assert_eq!(ours[4], Answer::Refused(8));
        theirs[4].clone()
    };
    assert!(is_astray(&with(Record::Read(vec![(11, 7)]))));
    assert!(is_astray(&with(Record::Take(vec![(10, 7), (10, 7)]))));
    let Answer::Samples(twice) = with(Record::Read(vec![(10, 7), (10, 7)])) else {
        panic!("no samples");
    };
    let states: Vec<u8> = twice.iter().map(|i| i.sample_state).collect();
    assert_eq!(states, [2, 1]);
    let Answer::Samples(other) = with(Record::Read(vec![(10, 9)])) else {
        panic!("no samples");
    };
    assert_eq!((other[0].handle, other[0].instance_state), (1, 2));
}

/// .. and that other instance is then marked viewed: its own samples, never read, are New no more.
#[test]
fn the_rust_marks_another_instance_viewed() {
    let new_within = Record::ChooseWithin(9, [3, 1, 7]);
    let wrong_pair = Record::Read(vec![(10, 9)]);
    let records = [
        set_up(1, 2, 2),
        add(7, 1, 10),
        add(9, 2, 20),
        new_within.clone(),
        wrong_pair,
        new_within,
    ];
    let (theirs, ours, left) = both(&records);
    assert_eq!(left, Some((4, Outside::Refusal)));
    assert_eq!(theirs[3], Answer::Selected(vec![(20, 9)]));
    assert_eq!(theirs[5], Answer::Selected(vec![]));
    assert_eq!(ours[5], Answer::Selected(vec![(20, 9)]));
}

/// Refusal 7: the crate's count overflows (here a panic, because overflow checks are on).
#[test]
fn the_rust_overflows_the_total() {
    let mut judge = Judge::default();
    for record in [set_up(1, 2, 1), dispose(7, 1, 10)] {
        judge.step(&record);
    }
    let limit = Counts {
        disposed: i32::MAX,
        no_writers: 0,
    };
    judge.seed_counts(7, limit);
    assert_eq!(judge.outside(&add(7, 2, 20)), Some(Outside::Refusal));
    assert!(is_astray(&judge.step_anyway(&add(7, 2, 20))));
}

/// Topic cache: time 0 gets key 1 (document 01: "check the constructor on the crate"); after the greatest key the crate wraps to 0.
#[test]
fn the_topic_caches_first_and_last_key() {
    let entry = |sequence, time| {
        topic::Call::Add(topic::Entry {
            key: time,
            writer: [1; 16],
            sequence,
            handle: 1,
            length: 0,
        })
    };
    let mut judge = topic::judge::Judge::default();
    judge.step(&topic::Call::New(topic::Limits::default()));
    assert_eq!(judge.step(&entry(1, 0)), topic::Reply::Key(1));
    assert_eq!(judge.step(&entry(2, u64::MAX)), topic::Reply::Key(u64::MAX));
    assert!(judge.outside(&entry(3, 5)));
    assert_eq!(judge.step(&entry(3, 5)), topic::Reply::Key(0));
}
