//! Sessions written by hand, each for one corner that random ones seldom meet.

use crate::session::{s1, Add, Pair, Record, SetUp};

pub const ANY: [u8; 3] = [3, 3, 7];

pub fn set_up(mode: u8, keep: i32, instances: u16) -> Record {
    Record::SetUp(SetUp {
        mode,
        keep,
        instances,
    })
}

/// An add of a value whose handle is its sequence number.
pub fn add(instance: u64, sequence: u64, time: u64) -> Record {
    Record::Add(Add {
        instance,
        writer: [9; 16],
        sequence,
        time,
        kind: 1,
        handle: sequence as u32,
    })
}

pub fn dispose(instance: u64, sequence: u64, time: u64) -> Record {
    match add(instance, sequence, time) {
        Record::Add(a) => Record::Add(Add { kind: 2, ..a }),
        other => other,
    }
}

/// Name and records of each.
pub fn corners() -> Vec<(&'static str, Vec<Record>)> {
    vec![
        ("s1", s1()),
        ("rust-drops-new", late_at_depth_1()),
        ("rust-offers-under-other", late_other_instance()),
        ("rust-evicts-other", late_evicts_other()),
        ("rust-loses-late", late_at_depth_2()),
        ("refusal-order-before-set-up", before_set_up()),
        ("last-key-greatest", greatest_key()),
        ("full-without-keep-count", full_mode_3()),
        ("negative-rank", negative_rank()),
        ("longest-list", longest_list()),
        ("set-up-bounds", set_up_bounds()),
        ("times-zero", zero_times()),
    ]
}

/// Document 01: "At depth 1, add A at 10, take it, add A at 5: the Rust drops the new sample, the port holds it under 11."
pub fn late_at_depth_1() -> Vec<Record> {
    let (a, take) = (7, Record::Take(vec![(10, 7)]));
    vec![
        set_up(1, 1, 2),
        add(a, 1, 10),
        take,
        add(a, 2, 5),
        Record::Choose(ANY),
        Record::Read(vec![(11, a)]),
    ]
}

/// Document 01: "Add A at 10, take it, add B at 10: the Rust offers B's sample under A; the port issues 11."
pub fn late_other_instance() -> Vec<Record> {
    let take = Record::Take(vec![(10, 7)]);
    let within_a = Record::ChooseWithin(7, ANY);
    vec![
        set_up(1, 1, 2),
        add(7, 1, 10),
        take,
        add(9, 2, 10),
        within_a,
        Record::Choose(ANY),
    ]
}

/// Depth 1: A at 10, take it, B at 10, A at 20: the Rust's last add evicts B's live sample.
pub fn late_evicts_other() -> Vec<Record> {
    let take = Record::Take(vec![(10, 7)]);
    vec![
        set_up(1, 1, 2),
        add(7, 1, 10),
        take,
        add(9, 2, 10),
        add(7, 3, 20),
        Record::Choose(ANY),
    ]
}

/// Depth 2: A at 10, A at 20, take 20, A at 15, A at 16: the Rust loses the sample at 15.
pub fn late_at_depth_2() -> Vec<Record> {
    let take = Record::Take(vec![(20, 7)]);
    let adds = [add(7, 3, 15), add(7, 4, 16)];
    let mut all = vec![set_up(1, 2, 2), add(7, 1, 10), add(7, 2, 20), take];
    all.extend(adds);
    all.push(Record::Choose(ANY));
    all
}

/// 1 before 10, 2 for a set-up that is not accepted, 10 for one after.
fn before_set_up() -> Vec<Record> {
    let bad_kind = match add(1, 1, 1) {
        Record::Add(a) => Record::Add(Add { kind: 0, ..a }),
        other => other,
    };
    let mut all = vec![
        bad_kind,
        add(1, 0, 1),
        add(1, 1 << 63, 1),
        Record::Choose([4, 3, 7]),
        add(1, 1, 1),
    ];
    all.extend([
        Record::Choose(ANY),
        Record::Read(vec![]),
        Record::NoWriters(1),
        Record::NextKey(0),
    ]);
    all.extend([
        set_up(5, 1, 1),
        set_up(1, 1, 1),
        set_up(1, 1, 1),
        set_up(9, 0, 0),
        add(1, 1, 1),
    ]);
    all
}

/// 2^64-1 is a fine first key; after it every add is 6, also where 4 would be due.
fn greatest_key() -> Vec<Record> {
    let take = Record::Take(vec![(u64::MAX, 7)]);
    let mut all = vec![
        set_up(1, 2, 1),
        add(7, 1, u64::MAX),
        add(7, 2, 5),
        add(8, 3, 5),
        Record::Choose(ANY),
    ];
    all.extend([
        take,
        add(7, 4, 1),
        Record::NextKey(6),
        Record::NextKey(u64::MAX),
    ]);
    all
}

/// 5 where all slots are live; 4 before it for a new instance; 5 no more after a take, and the slot taken is given again.
fn full_mode_3() -> Vec<Record> {
    let mut all = vec![set_up(3, 0, 2)];
    all.extend((0..256).map(|n| add(1 + n % 2, n + 1, n)));
    all.extend([
        add(1, 300, 1),
        add(3, 301, 1),
        dispose(2, 302, 9),
        Record::Take(vec![(17, 2)]),
    ]);
    all.extend([
        add(3, 303, 1),
        add(1, 304, 400),
        add(1, 305, 401),
        Record::Choose(ANY),
    ]);
    all
}

/// "a sample of total 3 beside a latest sample of total 0 has absolute rank -3"
fn negative_rank() -> Vec<Record> {
    let mut all = vec![set_up(1, 8, 2)];
    for n in 0..3 {
        all.extend([dispose(7, 2 * n + 1, 10 * n), add(7, 2 * n + 2, 10 * n + 5)]);
    }
    all.extend([
        add(9, 50, 60),
        Record::Read(vec![(25, 7), (60, 9)]),
        Record::Take(vec![(60, 9)]),
    ]);
    all.push(Record::Read(vec![(25, 7), (5, 7)]));
    all
}

/// 4,095 pairs fit a record: 8, never 1 or 9. 256 live ones are all answered.
fn longest_list() -> Vec<Record> {
    let mut all = vec![set_up(1, 8, 32)];
    all.extend((0..256).map(|n| add(n % 32, n + 1, n + 1)));
    let live: Vec<Pair> = (0..256).map(|n| (n + 1, n % 32)).collect();
    let long = live.iter().copied().cycle().take(4095).collect();
    let mut one_more = live.clone();
    one_more.push((1, 0));
    all.extend([
        Record::Read(long),
        Record::Take(one_more),
        Record::Read(live.clone()),
        Record::Take(live),
    ]);
    all.push(Record::Choose(ANY));
    all
}

fn set_up_bounds() -> Vec<Record> {
    let bad = [
        (0, 1, 1),
        (5, 1, 1),
        (1, 0, 1),
        (1, -1, 1),
        (2, 257, 1),
        (1, 9, 32),
        (1, i32::MAX, 32),
        (2, i32::MIN, 2),
        (3, 1, 1),
        (4, 1, 1),
        (3, 0, 0),
        (4, 0, 33),
        (1, 1, u16::MAX),
    ];
    let mut all: Vec<Record> = bad.iter().map(|(m, k, i)| set_up(*m, *k, *i)).collect();
    all.extend([set_up(2, 8, 32), add(1, 1, 1)]);
    all
}

/// Time 0 is a fine first key; again and again it is repaired.
fn zero_times() -> Vec<Record> {
    let mut all = vec![set_up(1, 2, 2)];
    all.extend((0..6).map(|n| add(n % 2, 6 - n, 0)));
    all.push(Record::Choose(ANY));
    all
}
