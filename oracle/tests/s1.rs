//! Session S1 of document 01: the reference prints it, and docs/src agrees until the add that leaves the ground.

use oracle::{
    compare::expected,
    judge::{Judge, Outside},
    session::{encode, s1},
};

const S1: &str = "ok
key 100 slot 0 evicted -
key 101 slot 1 evicted -
key 102 slot 2 evicted -
key 200 slot 0 evicted 11
selected 3
101 9
102 7
200 7
samples 3
12 1 2 1 1 0 0 2 1 1
13 2 2 1 1 0 0 1 1 1
14 1 2 1 1 1 0 0 0 0
samples 1
13 2 1 2 1 0 0 0 1 1
selected 1
200 7
samples 1
14 1 1 1 1 1 0 0 0 0
key 201 slot 0 evicted 13
next 9
next -
refused 3
";

#[test]
fn reference_prints_s1() {
    assert_eq!(expected(&encode(&s1())), S1);
}

/// The tenth record after set-up leaves the ground, and there the Rust issues 150.
#[test]
fn the_rust_on_s1() {
    let mut judge = Judge::default();
    let mut text = String::new();
    let mut left = Vec::new();
    for (n, record) in s1().iter().enumerate() {
        if let Some(why) = judge.outside(record) {
            left.push((n, why));
        }
        text.push_str(&judge.step_anyway(record).lines(false));
    }
    assert_eq!(left[0], (10, Outside::LateAdd));
    let no_slots = |s: &str| -> Vec<String> {
        s.lines()
            .map(|l| match l.split_once(" slot ") {
                Some((key, rest)) => format!("{key} {}", rest.split_once(' ').map_or("", |r| r.1)),
                None => l.to_string(),
            })
            .collect()
    };
    let (theirs, ours) = (no_slots(&text), no_slots(S1));
    let differ: Vec<usize> = (0..ours.len()).filter(|n| theirs[*n] != ours[*n]).collect();
    // 22 of 23 lines agree.
    assert_eq!(differ, [19]);
    assert_eq!(theirs[19], "key 150 evicted 13");
}
