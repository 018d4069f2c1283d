//! docs/src and a program on one stream of sessions, with nothing of ours between them but the printing: every line that the Rust can
//! speak to, up to the first record outside the common ground.

use std::io;

use crate::{
    compare::Tally,
    external::{first_difference, run, Program},
    judge::Judge,
    session::{encode, Record},
    topic,
};

/// What docs/src says up to the first record outside the ground, and why that one is outside.
struct Spoken {
    text: String,
    answers: u64,
    left: Option<&'static str>,
}

/// `sources`: with the lines that `full_session` prints more.
fn spoken(records: &[Record], sources: bool) -> Spoken {
    let mut judge = Judge::default();
    let mut out = Spoken {
        text: String::new(),
        answers: 0,
        left: None,
    };
    for record in records {
        if let Some(why) = judge.outside(record) {
            out.left = Some(why.text());
            return out;
        }
        let answer = judge.step(record);
        out.text.push_str(&answer.lines(false));
        if sources {
            out.text.push_str(&answer.sources());
        }
        out.answers += 1;
    }
    out
}

pub fn rust_and_program(
    program: &Program,
    records: &[Record],
    sources: bool,
    tally: &mut Tally,
) -> io::Result<()> {
    let rust = spoken(records, sources);
    let got = run(program, &encode(records))?;
    tally.sessions += 1;
    tally.on_ground += rust.answers;
    tally.lines += rust.text.lines().count() as u64;
    match rust.left {
        Some(why) => *tally.left.entry(why).or_default() += 1,
        None => tally.never_left += 1,
    }
    tally.differences.extend(got.fault);
    tally.differences.extend(difference(&rust.text, &got.text));
    Ok(())
}

/// The same for the topic cache.
pub fn rust_and_topic_program(
    program: &Program,
    calls: &[topic::Call],
    tally: &mut topic::compare::Tally,
) -> io::Result<()> {
    let mut judge = topic::judge::Judge::default();
    let ground = calls.iter().map_while(|call| {
        let inside = !judge.outside(call);
        inside.then(|| topic::format::lines(&judge.step(call)))
    });
    let spoken: Vec<String> = ground.collect();
    let got = run(program, &topic::format::encode(calls))?;
    tally.runs += 1;
    tally.replies += spoken.len() as u64;
    tally.lines += topic::compare::count_lines(&spoken);
    tally.never_left += u64::from(spoken.len() == calls.len());
    tally.differences.extend(got.fault);
    tally
        .differences
        .extend(difference(&spoken.concat(), &got.text));
    Ok(())
}

/// The first line of the Rust that the program does not print. What the program prints after the Rust's last line is left aside.
fn difference(rust: &str, program: &str) -> Option<String> {
    let count = rust.lines().count();
    let front: String = program
        .split_inclusive('\n')
        .take(count)
        .map(without_slot)
        .collect();
    let (line, theirs, ours) = first_difference(rust, &front)?;
    Some(format!(
        "line {line}\n  the Rust: {theirs}\n  program:  {ours}"
    ))
}

/// A key line with its slot as `?`, which is how the judge prints it: the Rust has none.
fn without_slot(line: &str) -> String {
    let open = || {
        let (key, rest) = line.strip_prefix("key ")?.split_once(" slot ")?;
        let (_, evicted) = rest.split_once(' ')?;
        Some(format!("key {key} slot ? {evicted}"))
    };
    open().unwrap_or_else(|| line.to_string())
}

#[cfg(test)]
mod tests {
    use super::*;
    use crate::session::s1;

    const PROGRAM: &str = "ok\nkey 100 slot 0 evicted -\nkey 101 slot 1 evicted 11\nrefused 3\n";
    const RUST: &str = "ok\nkey 100 slot ? evicted -\nkey 101 slot ? evicted 11\n";

    #[test]
    fn slots_and_what_follows_are_left_aside() {
        assert_eq!(difference(RUST, PROGRAM), None);
    }

    #[test]
    fn keys_evicted_handles_and_missing_lines_are_seen() {
        for (right, wrong) in [("key 101", "key 102"), ("evicted 11", "evicted -")] {
            let other = PROGRAM.replace(right, wrong);
            assert!(difference(RUST, &other).is_some_and(|d| d.starts_with("line 3")));
        }
        assert!(difference(RUST, "ok\nkey 100 slot 0 evicted -\n").is_some());
        assert!(difference(RUST, "").is_some());
    }

    /// The Rust speaks to the first ten records of S1, 19 lines; the add behind them is late.
    #[test]
    fn the_rust_speaks_to_ten_records_of_s1() {
        let rust = spoken(&s1(), false);
        assert_eq!((rust.answers, rust.text.lines().count()), (10, 19));
        assert!(rust.left.is_some_and(|why| why.starts_with("an add")));
    }

    /// Five infos are shown on the way, so there are five lines more.
    #[test]
    fn sources_are_a_line_an_info() {
        let rust = spoken(&s1(), true);
        assert_eq!(rust.text.lines().count(), 24);
        assert!(rust.text.contains("\n00000000000000000000000000000000 3\n"));
    }
}
