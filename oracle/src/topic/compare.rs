//! One run of calls on docs/src and on the reference.

use std::io;

use super::{
    format::{decode, encode, lines, record},
    judge::Judge,
    reference::Reference,
    wrong::Wrong,
    Call, Reply,
};
use crate::{
    external::{first_difference, run, talk, Program},
    frames,
};

#[derive(Debug, Default)]
pub struct Tally {
    pub runs: u64,
    pub replies: u64,
    pub never_left: u64,
    pub most_held: usize,
    /// Lines compared with a program.
    pub lines: u64,
    pub differences: Vec<String>,
}

impl Tally {
    pub fn print(&self, title: &str) {
        println!(
            "topic, {title}: {} runs, {} replies{}{}; differences: {}",
            self.runs,
            self.replies,
            told(self.lines, "lines"),
            told(self.never_left, "never left the ground"),
            self.differences.len()
        );
        if self.most_held > 0 {
            println!("  at most {} held", self.most_held);
        }
        for difference in self.differences.iter().take(3) {
            println!("DIFFERENCE {difference}");
        }
    }
}

/// A count that not every comparison has.
fn told(count: u64, what: &str) -> String {
    match count {
        0 => String::new(),
        n => format!(", {n} {what}"),
    }
}

pub fn with_the_rust(calls: &[Call], wrong: Option<Wrong>, tally: &mut Tally) {
    let mut judge = Judge::default();
    let mut reference = Reference::new(wrong);
    tally.runs += 1;
    for (n, call) in calls.iter().enumerate() {
        if judge.outside(call) {
            return;
        }
        let theirs = judge.step(call);
        let ours = reference.step(call);
        let (whole_theirs, whole_ours) = (judge.step(&ALL), reference.step(&ALL));
        if theirs != ours || whole_theirs != whole_ours {
            let text = format!(
                "call {n} {call:?}\n  reference: {}  the Rust:  {}",
                lines(&ours),
                lines(&theirs)
            );
            tally.differences.push(text);
            return;
        }
        tally.replies += 1;
        tally.most_held = tally.most_held.max(reference.held().len());
    }
    tally.never_left += 1;
}

/// Everything held: a key is never 0.
const ALL: Call = Call::Range(0, u64::MAX);

/// Whether a wrong variant answers any call of the run otherwise than the reference.
pub fn variant_parts(calls: &[Call], wrong: Wrong) -> bool {
    let mut right = Reference::default();
    let mut other = Reference::new(Some(wrong));
    calls.iter().any(|call| {
        let replies: (Reply, Reply) = (right.step(call), other.step(call));
        replies.0 != replies.1 || right.held() != other.held()
    })
}

/// What a program that speaks `format.rs` must print, record by record.
pub fn expected(bytes: &[u8]) -> Vec<String> {
    let mut reference = Reference::default();
    let calls = decode(bytes).into_iter();
    calls
        .map(|call| call.map_or(Reply::Refused(1), |c| reference.step(&c)))
        .map(|reply| lines(&reply))
        .collect()
}

pub fn count_lines(answers: &[String]) -> u64 {
    answers.iter().map(|a| a.lines().count() as u64).sum()
}

/// A program against the reference, every line, everywhere; the bytes may be damaged.
pub fn with_program(program: &Program, bytes: &[u8], tally: &mut Tally) -> io::Result<()> {
    let expected = expected(bytes);
    let got = run(program, bytes)?;
    tally.runs += 1;
    tally.replies += expected.len() as u64;
    tally.lines += count_lines(&expected);
    tally.differences.extend(got.fault);
    if let Some((line, ours, theirs)) = first_difference(&expected.concat(), &got.text) {
        tally.differences.push(format!(
            "line {line}\n  reference: {ours}\n  program:   {theirs}"
        ));
    }
    Ok(())
}

/// The same over a pipe: a record goes out only when the one before is answered.
pub fn over_a_pipe(program: &Program, calls: &[Call], tally: &mut Tally) -> io::Result<()> {
    let answers = expected(&encode(calls));
    tally.lines += count_lines(&answers);
    let sent = frames::parts(calls.iter().map(record));
    let parts: Vec<(Vec<u8>, String)> = sent.into_iter().zip(answers).collect();
    tally.runs += 1;
    tally.replies += parts.len() as u64;
    tally.differences.extend(talk(program, &parts)?);
    Ok(())
}
