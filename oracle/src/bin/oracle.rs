//! `oracle [--full] [--beyond] [FILE]`: what docs/src answers to a session, from a file or standard input.
//!
//! Slots print as `?`. Where the session leaves the common ground a line `ground left at record N: why` follows and the program
//! ends with status 3; with --beyond it goes on with whatever the Rust does. --full adds writer and sequence number to infos.

use std::{
    env, fs,
    io::{self, Read, Write},
    process::ExitCode,
};

use oracle::{
    answer::Answer,
    judge::{Judge, Outside},
    session::{items, Item},
};

fn main() -> io::Result<ExitCode> {
    let mut full = false;
    let mut beyond = false;
    let mut file = None;
    for arg in env::args().skip(1) {
        match arg.as_str() {
            "--full" => full = true,
            "--beyond" => beyond = true,
            _ => file = Some(arg),
        }
    }
    let bytes = match file {
        Some(path) => fs::read(path)?,
        None => {
            let mut all = Vec::new();
            io::stdin().read_to_end(&mut all)?;
            all
        }
    };
    std::panic::set_hook(Box::new(|_| ()));
    speak(&bytes, full, beyond)
}

fn speak(bytes: &[u8], full: bool, beyond: bool) -> io::Result<ExitCode> {
    let mut out = io::stdout().lock();
    let mut judge = Judge::default();
    let mut on_ground = true;
    for (n, item) in items(bytes).iter().enumerate() {
        let outside = match item {
            Item::Record(record) => judge.outside(record),
            Item::Bad | Item::Stop => Some(Outside::Refusal),
        };
        if let (true, Some(why)) = (on_ground, outside) {
            writeln!(out, "ground left at record {n}: {}", why.text())?;
            on_ground = false;
            if !beyond {
                return Ok(ExitCode::from(3));
            }
        }
        let answer = match item {
            Item::Record(record) => judge.step_anyway(record),
            Item::Bad | Item::Stop => Answer::Refused(1),
        };
        out.write_all(answer.lines(full).as_bytes())?;
    }
    Ok(ExitCode::SUCCESS)
}
