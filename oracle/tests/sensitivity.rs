//! Each wrong variant is caught, and by the Rust wherever the Rust can speak to it.

use oracle::{
    sensitivity::{rows, stream, topic_rows, topic_stream},
    wrong::{Caught, Wrong},
};

#[test]
fn every_variant_is_caught() {
    assert!(Wrong::ALL.len() >= 15);
    let mut all = rows(&stream(7, 30, ""));
    all.extend(topic_rows(&topic_stream(7, 30)));
    for row in all {
        assert!(row.by_the_reference > 0, "{} passes unseen", row.name);
        if row.caught == Caught::ByTheRust {
            assert!(row.by_the_rust > 0, "{} is not seen by the Rust", row.name);
        }
    }
}
