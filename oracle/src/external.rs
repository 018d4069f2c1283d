//! A program that speaks the session protocol: bytes to its standard input, lines from its standard output.

use std::{
    io::{self, BufRead, BufReader, Read, Write},
    process::{Child, Command, ExitStatus, Stdio},
    sync::mpsc,
    thread,
    time::Duration,
};

/// A command: a program and its arguments, as `../tools/run session_main`.
pub struct Program {
    name: String,
    arguments: Vec<String>,
}

impl Program {
    /// The words are parted by blanks, so that none of them holds one. Nothing where there is no word.
    pub fn of(text: &str) -> Option<Self> {
        let mut words = text.split_whitespace().map(str::to_string);
        Some(Self {
            name: words.next()?,
            arguments: words.collect(),
        })
    }

    fn start(&self) -> io::Result<Child> {
        Command::new(&self.name)
            .args(&self.arguments)
            .stdin(Stdio::piped())
            .stdout(Stdio::piped())
            .spawn()
            .map_err(|e| io::Error::new(e.kind(), format!("{}: {e}", self.name)))
    }
}

/// What a program printed, and how it failed: by its status, which is 1 by `tools/run` if it said anything on standard error.
pub struct Ran {
    pub text: String,
    pub fault: Option<String>,
}

fn fault_of(status: ExitStatus) -> Option<String> {
    (!status.success()).then(|| format!("the program ended with {status}"))
}

pub fn run(program: &Program, input: &[u8]) -> io::Result<Ran> {
    let mut child = program.start()?;
    let (Some(mut stdin), Some(mut stdout)) = (child.stdin.take(), child.stdout.take()) else {
        return Err(io::Error::other("no pipes"));
    };
    let mut out = Vec::new();
    // A second thread writes, because a long session and a long answer would fill both pipes.
    thread::scope(|scope| {
        scope.spawn(move || {
            // A program that stops early (a cut-off record) closes its end; that is no fault.
            let _ = stdin.write_all(input);
        });
        stdout.read_to_end(&mut out)
    })?;
    let status = child.wait()?;
    Ok(Ran {
        text: String::from_utf8_lossy(&out).into_owned(),
        fault: fault_of(status),
    })
}

/// Ends a program by the signal TERM, which `tools/run` passes on; `Child::kill` would end the runner alone.
fn end(child: &Child) -> io::Result<()> {
    let number = child.id().to_string();
    Command::new("sh")
        .args(["-c", "kill \"$0\"", &number])
        .status()?;
    Ok(())
}

/// Talks to a program over a pipe: each part is sent only when the answer to the one before has come. The parts come with the
/// lines that must answer them. Answers the first part that was answered otherwise, or not within five seconds.
pub fn talk(program: &Program, parts: &[(Vec<u8>, String)]) -> io::Result<Option<String>> {
    let mut child = program.start()?;
    let (Some(mut stdin), Some(stdout)) = (child.stdin.take(), child.stdout.take()) else {
        return Err(io::Error::other("no pipes"));
    };
    let (send, receive) = mpsc::channel();
    // A thread of its own reads, so that a program that keeps its answers back does not stop the comparison.
    let reader = thread::spawn(move || {
        for line in BufReader::new(stdout).lines() {
            let Ok(line) = line else { return };
            if send.send(line).is_err() {
                return;
            }
        }
    });
    let mut fault = None;
    'parts: for (n, (bytes, expected)) in parts.iter().enumerate() {
        stdin.write_all(bytes)?;
        stdin.flush()?;
        for line in expected.lines() {
            let got = receive.recv_timeout(Duration::from_secs(5));
            if got.as_deref() != Ok(line) {
                fault = Some(format!("part {n}: {line:?} expected, {got:?} came"));
                break 'parts;
            }
        }
    }
    drop(stdin);
    if fault.is_some() {
        end(&child)?;
    }
    let status = child.wait()?;
    let _ = reader.join();
    Ok(fault.or(fault_of(status)))
}

/// The first line that differs, counted from 1, with both sides.
pub fn first_difference(expected: &str, got: &str) -> Option<(usize, String, String)> {
    if expected == got {
        return None;
    }
    let (mut left, mut right) = (expected.split('\n'), got.split('\n'));
    let mut number = 0;
    loop {
        number += 1;
        let (l, r) = (left.next(), right.next());
        if l != r {
            let show =
                |side: Option<&str>| side.map_or("(nothing)".to_string(), |s| format!("{s:?}"));
            return Some((number, show(l), show(r)));
        }
    }
}
