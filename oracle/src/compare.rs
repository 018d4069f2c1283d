//! One session on two sides at once, answer by answer.

use std::{collections::BTreeMap, io};

use crate::{
    answer::Answer,
    external::{first_difference, run, talk, Program},
    frames::{self, hex},
    generate::Step,
    judge::{Judge, Outside},
    reference::Reference,
    session::{encode_record, Record},
    wrong::Wrong,
};

/// What a stream of sessions gave.
#[derive(Debug, Default)]
pub struct Tally {
    pub sessions: u64,
    /// Answers compared with the Rust on the common ground.
    pub on_ground: u64,
    /// Answers compared with the Rust after a no-writers event or a seeding, which reach it by our hooks.
    pub by_hook: u64,
    pub never_left: u64,
    pub left: BTreeMap<&'static str, u64>,
    /// Answers with a negative absolute rank among those compared.
    pub negative_ranks: u64,
    /// Lines compared with a program.
    pub lines: u64,
    pub differences: Vec<String>,
}

/// Runs the session on docs/src and on the reference and compares every answer up to the first record outside the ground.
/// No-writers events and seedings go on by the hooks.
pub fn with_the_rust(steps: &[Step], wrong: Option<Wrong>, tally: &mut Tally) {
    let mut judge = Judge::default();
    let mut reference = Reference::new(wrong);
    let mut hooked = false;
    tally.sessions += 1;
    for (n, step) in steps.iter().enumerate() {
        let record = match step {
            Step::Record(record) => record,
            Step::Seed(name, counts) => {
                judge.seed_counts(*name, *counts);
                reference.seed_counts(*name, *counts);
                hooked = true;
                continue;
            }
        };
        let outside = judge.outside(record);
        let ours = reference.step(record);
        let refused = matches!(ours, Answer::Refused(_));
        if refused != (outside == Some(Outside::Refusal)) {
            tally.differ(n, record, &ours, &format!("outside: {outside:?}"));
            return;
        }
        match outside {
            Some(Outside::NoWriters) => hooked = true,
            Some(reason) => {
                *tally.left.entry(reason.text()).or_default() += 1;
                return;
            }
            None => (),
        }
        let theirs = judge.step(record);
        if !theirs.agrees(&ours) {
            tally.differ(n, record, &ours, &theirs.lines(true));
            return;
        }
        tally.count(&theirs, hooked);
    }
    tally.never_left += 1;
}

impl Tally {
    pub fn print(&self, title: &str) {
        let differences = self.differences.len();
        if self.lines > 0 {
            println!(
                "{title}: {} sessions, {} lines{}; differences: {differences}",
                self.sessions,
                self.lines,
                self.spoken()
            );
        } else {
            println!(
                "{title}: {} sessions, {} answers on the ground, {} more by the hooks ({} with a negative rank); {} never left \
                 the ground; differences: {differences}",
                self.sessions, self.on_ground, self.by_hook, self.negative_ranks, self.never_left,
            );
        }
        for (why, count) in &self.left {
            println!("  left the ground by {why}: {count}");
        }
        for difference in self.differences.iter().take(3) {
            println!("DIFFERENCE {difference}");
        }
    }

    /// For a program beside the Rust itself (`direct.rs`).
    fn spoken(&self) -> String {
        match self.on_ground {
            0 => String::new(),
            n => format!(
                " of {n} answers on the ground; {} never left it",
                self.never_left
            ),
        }
    }

    fn count(&mut self, answer: &Answer, hooked: bool) {
        if hooked {
            self.by_hook += 1;
        } else {
            self.on_ground += 1;
        }
        if let Answer::Samples(infos) = answer {
            let negative = infos.iter().any(|i| i.absolute_generation_rank < 0);
            self.negative_ranks += u64::from(negative);
        }
    }

    fn differ(&mut self, n: usize, record: &dyn std::fmt::Debug, ours: &Answer, theirs: &str) {
        let text = format!(
            "step {n} {record:?}\n  reference: {}  other:     {theirs}",
            ours.lines(true)
        );
        self.differences.push(text);
    }
}

/// Whether the reference and a wrong variant of it part anywhere: what a comparison with a program would see.
pub fn variant_parts(steps: &[Step], wrong: Wrong) -> bool {
    let mut right = Reference::default();
    let mut other = Reference::new(Some(wrong));
    steps.iter().any(|step| match step {
        Step::Record(record) => right.step(record) != other.step(record),
        Step::Seed(name, counts) => {
            right.seed_counts(*name, *counts);
            other.seed_counts(*name, *counts);
            false
        }
    })
}

/// What the session program must print.
pub fn expected(bytes: &[u8]) -> String {
    let answers = Reference::default().run(bytes);
    answers.iter().map(|a| a.lines(false)).collect()
}

/// Runs a program on the session and compares every line with the reference, everywhere.
pub fn with_program(program: &Program, bytes: &[u8], tally: &mut Tally) -> io::Result<()> {
    let expected = expected(bytes);
    let got = run(program, bytes)?;
    tally.sessions += 1;
    tally.differences.extend(got.fault);
    if let Some((line, ours, theirs)) = first_difference(&expected, &got.text) {
        let session = hex(bytes);
        tally.differences.push(format!(
            "line {line}\n  reference: {ours}\n  program:   {theirs}\n  session:   {session}"
        ));
    }
    tally.lines += expected.lines().count() as u64;
    Ok(())
}

/// The same over a pipe: a record goes out only when the one before is answered ("so that a station can talk to the program").
pub fn over_a_pipe(program: &Program, records: &[Record], tally: &mut Tally) -> io::Result<()> {
    let mut reference = Reference::default();
    let answers = records.iter().map(|r| reference.step(r).lines(false));
    let sent = frames::parts(records.iter().map(encode_record));
    let parts: Vec<(Vec<u8>, String)> = sent.into_iter().zip(answers).collect();
    tally.sessions += 1;
    tally.lines += parts
        .iter()
        .map(|(_, text)| text.lines().count() as u64)
        .sum::<u64>();
    tally.differences.extend(talk(program, &parts)?);
    Ok(())
}
