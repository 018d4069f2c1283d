//! `compare KIND [--seed N] [--sessions N] [--length N] [--every N] [--program "WORD .."]`
//!    [--profile NAME] [--folder PATH]
//!
//! A program is a command, its words parted by blanks: `"../tools/run session_main"`.
//! Without --program: docs/src against the reference. With it: that program against the reference, every line, everywhere.
//! KIND: random (each profile in turn), short (all words up to the length), damage (broken bytes, programs only), sensitivity
//! (in how many sessions each wrong variant of the reference is seen), topic (the topic cache), corners (sessions by hand), pipe (those,
//! each record sent only when the one before is answered; programs only), write
//! (corners and random sessions as files `NAME.session` and `NAME.printout` in the folder given by --folder).
//! Programs only, docs/src itself against the program, up to the first record outside the ground: judge (random sessions), judge-full (those,
//! for full_session, which prints each info's writer and sequence number too), judge-short, judge-corners, judge-topic. Programs only, for the topic cache: topic-damage, topic-pipe (sessions by hand).

use std::{env, fs, io, path::PathBuf, process::ExitCode, time::Instant};

use oracle::{
    compare::{expected, over_a_pipe, with_program, with_the_rust, Tally},
    direct::{rust_and_program, rust_and_topic_program},
    external::Program,
    generate::{
        bytes, corners::corners, damage::damage, profile::PROFILES, random, records, short, Step,
    },
    rng::Rng,
    sensitivity::{rows, stream, topic_rows, topic_stream},
    session, topic,
};

struct Options {
    kind: String,
    seed: u64,
    sessions: u64,
    length: u32,
    every: u64,
    program: Option<Program>,
    folder: PathBuf,
    profile: String,
}

fn options() -> Option<Options> {
    let mut args = env::args().skip(1);
    let mut o = Options {
        kind: args.next()?,
        seed: 1,
        sessions: 1000,
        length: 5,
        every: 1,
        program: None,
        folder: ".".into(),
        profile: String::new(),
    };
    while let Some(name) = args.next() {
        let value = args.next()?;
        match name.as_str() {
            "--seed" => o.seed = value.parse().ok()?,
            "--sessions" => o.sessions = value.parse().ok()?,
            "--length" => o.length = value.parse().ok()?,
            "--every" => o.every = value.parse().ok()?,
            "--profile" => o.profile = value,
            "--folder" => o.folder = value.into(),
            "--program" => o.program = Some(Program::of(&value)?),
            _ => return None,
        }
    }
    Some(o)
}

fn main() -> io::Result<ExitCode> {
    let Some(o) = options() else {
        eprintln!("compare random|short|damage|sensitivity|topic|topic-damage|topic-pipe|corners|pipe|judge|judge-full|judge-short|judge-corners|judge-topic|write [--seed N] [--sessions N] [--length N] [--every N] [--program \"WORD ..\"] [--folder PATH] [--profile NAME]");
        return Ok(ExitCode::from(2));
    };
    if needs_program(&o.kind) && o.program.is_none() {
        eprintln!("{} needs --program", o.kind);
        return Ok(ExitCode::from(2));
    }
    let start = Instant::now();
    let differences = match o.kind.as_str() {
        "random" | "judge" | "judge-full" => random_sessions(&o)?,
        "short" | "judge-short" => short_sessions(&o)?,
        "damage" => damaged_sessions(&o)?,
        "sensitivity" => sensitivity(&o),
        "topic" | "topic-damage" | "judge-topic" => topic_runs(&o)?,
        "topic-pipe" => topic_pipe(&o)?,
        "corners" | "judge-corners" => corner_sessions(&o)?,
        "pipe" => pipe_sessions(&o)?,
        "write" => write_sessions(&o)?,
        other => {
            eprintln!("no such kind: {other}");
            return Ok(ExitCode::from(2));
        }
    };
    println!(
        "{differences} differences, {:.1} s",
        start.elapsed().as_secs_f64()
    );
    Ok(if differences == 0 {
        ExitCode::SUCCESS
    } else {
        ExitCode::FAILURE
    })
}

fn needs_program(kind: &str) -> bool {
    let both = ["damage", "pipe", "topic-damage", "topic-pipe"];
    both.contains(&kind) || kind.starts_with("judge")
}

/// One session on the side that was asked for. A program gets the sessions that bytes can say.
fn one(o: &Options, steps: &[Step], tally: &mut Tally) -> io::Result<()> {
    match (&o.program, records(steps)) {
        (Some(program), Some(records)) if o.kind.starts_with("judge") => {
            rust_and_program(program, &records, o.kind == "judge-full", tally)
        }
        (Some(program), Some(records)) => with_program(program, &session::encode(&records), tally),
        (Some(_), None) => Ok(()),
        (None, _) => {
            with_the_rust(steps, None, tally);
            Ok(())
        }
    }
}

fn random_sessions(o: &Options) -> io::Result<usize> {
    let mut differences = 0;
    for (n, profile) in PROFILES.iter().enumerate() {
        if !profile.name.contains(&o.profile) {
            continue;
        }
        if profile.seeds && o.program.is_some() {
            println!(
                "{}: left out, a program has no hook for counts",
                profile.name
            );
            continue;
        }
        let mut rng = Rng::new(o.seed.wrapping_mul(1000).wrapping_add(n as u64));
        let mut tally = Tally::default();
        for _ in 0..profile.sessions(o.sessions) {
            one(o, &random::session(&mut rng, profile), &mut tally)?;
        }
        tally.print(profile.name);
        differences += tally.differences.len();
    }
    Ok(differences)
}

fn corner_sessions(o: &Options) -> io::Result<usize> {
    let mut tally = Tally::default();
    for (_, records) in corners() {
        let steps: Vec<Step> = records.into_iter().map(Step::Record).collect();
        one(o, &steps, &mut tally)?;
    }
    tally.print("corners");
    Ok(tally.differences.len())
}

fn pipe_sessions(o: &Options) -> io::Result<usize> {
    let mut tally = Tally::default();
    if let Some(program) = &o.program {
        for (_, records) in corners() {
            over_a_pipe(program, &records, &mut tally)?;
        }
    }
    tally.print("over a pipe");
    Ok(tally.differences.len())
}

/// A fixed list to replay where no Rust is at hand.
fn write_sessions(o: &Options) -> io::Result<usize> {
    let mut named: Vec<(String, Vec<u8>)> = Vec::new();
    for (name, records) in corners() {
        named.push((name.to_string(), session::encode(&records)));
    }
    let mut rng = Rng::new(o.seed);
    for n in 0..o.sessions {
        let profile = &PROFILES[n as usize % PROFILES.len()];
        // Seeded sessions have no bytes.
        if let Some(good) = bytes(&random::session(&mut rng, profile)) {
            named.push((format!("random-{n:03}"), good.clone()));
            named.push((format!("damaged-{n:03}"), damage(&mut rng, good)));
        }
    }
    for (name, session) in &named {
        fs::write(o.folder.join(format!("{name}.session")), session)?;
        fs::write(o.folder.join(format!("{name}.printout")), expected(session))?;
    }
    println!("{} sessions written", named.len());
    Ok(0)
}

fn short_sessions(o: &Options) -> io::Result<usize> {
    let mut differences = 0;
    for set_up in short::SET_UPS {
        let title = format!("{set_up:?}");
        if !title.contains(&o.profile) {
            continue;
        }
        let mut tally = Tally::default();
        for length in 1..=o.length {
            for number in (0..short::words(length)).step_by(o.every as usize) {
                one(
                    o,
                    &short::session(set_up, &short::word(number, length)),
                    &mut tally,
                )?;
            }
        }
        tally.print(&title);
        differences += tally.differences.len();
    }
    Ok(differences)
}

fn damaged_sessions(o: &Options) -> io::Result<usize> {
    let mut rng = Rng::new(o.seed);
    let mut tally = Tally::default();
    for _ in 0..o.sessions {
        let profile = rng.pick(PROFILES);
        let good = bytes(&random::session(&mut rng, &profile)).unwrap_or_default();
        let broken = damage(&mut rng, good);
        if let Some(program) = &o.program {
            with_program(program, &broken, &mut tally)?;
        }
    }
    tally.print("damaged bytes");
    Ok(tally.differences.len())
}

/// Answers how many variants went unseen.
fn sensitivity(o: &Options) -> usize {
    let sessions = stream(o.seed, o.sessions, &o.profile);
    println!(
        "of {} sessions, seen by the Rust and by the reference:",
        sessions.len()
    );
    let mut all = rows(&sessions);
    all.extend(topic_rows(&topic_stream(o.seed, o.sessions as usize)));
    for r in &all {
        println!(
            "{:6} {:6}  {}: {}",
            r.by_the_rust, r.by_the_reference, r.name, r.text
        );
    }
    all.iter().filter(|r| r.by_the_reference == 0).count()
}

fn topic_runs(o: &Options) -> io::Result<usize> {
    let mut differences = 0;
    for (n, kind) in topic::generate::KINDS.into_iter().enumerate() {
        let mut rng = Rng::new(o.seed.wrapping_mul(1000).wrapping_add(n as u64));
        let mut tally = topic::compare::Tally::default();
        for _ in 0..o.sessions {
            let calls = topic::generate::run(&mut rng, kind);
            one_topic(o, &calls, &mut rng, &mut tally)?;
        }
        tally.print(&format!("{kind:?}"));
        differences += tally.differences.len();
    }
    Ok(differences)
}

fn one_topic(
    o: &Options,
    calls: &[topic::Call],
    rng: &mut Rng,
    tally: &mut topic::compare::Tally,
) -> io::Result<()> {
    let Some(program) = &o.program else {
        topic::compare::with_the_rust(calls, None, tally);
        return Ok(());
    };
    let bytes = topic::format::encode(calls);
    match o.kind.as_str() {
        "judge-topic" => rust_and_topic_program(program, calls, tally),
        "topic-damage" => topic::compare::with_program(program, &damage(rng, bytes), tally),
        _ => topic::compare::with_program(program, &bytes, tally),
    }
}

fn topic_pipe(o: &Options) -> io::Result<usize> {
    let mut tally = topic::compare::Tally::default();
    if let Some(program) = &o.program {
        for calls in topic::generate::corners() {
            topic::compare::over_a_pipe(program, &calls, &mut tally)?;
        }
    }
    tally.print("over a pipe");
    Ok(tally.differences.len())
}
