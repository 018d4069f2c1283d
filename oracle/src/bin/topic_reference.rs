//! `topic_reference < BYTES`: the topic cache's reference as a program (topic/format.rs), to try the comparison with programs.

use std::io::{self, Read, Write};

use oracle::topic::compare::expected;

fn main() -> io::Result<()> {
    let mut bytes = Vec::new();
    io::stdin().read_to_end(&mut bytes)?;
    io::stdout().write_all(expected(&bytes).concat().as_bytes())
}
