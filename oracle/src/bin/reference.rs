//! `reference [--full] [FILE]`: the session program by the plain reference, from a file or standard input.
//! Answers go out record by record, so that it can be talked to over a pipe. Set ORACLE_WRONG to a variant's name to make it err.

use std::{
    env, fs,
    io::{self, Read, Write},
};

use oracle::{
    answer::Answer,
    frames::VERSION,
    reference::Reference,
    session::{items, Item},
    wrong::Wrong,
};

fn main() -> io::Result<()> {
    let mut full = false;
    let mut input: Box<dyn Read> = Box::new(io::stdin().lock());
    for arg in env::args().skip(1) {
        match arg.as_str() {
            "--full" => full = true,
            path => input = Box::new(fs::File::open(path)?),
        }
    }
    let name = env::var("ORACLE_WRONG").unwrap_or_default();
    let wrong = Wrong::ALL.iter().find(|(w, ..)| format!("{w:?}") == name);
    let mut reference = Reference::new(wrong.map(|(w, ..)| *w));
    talk(&mut input, &mut reference, full)
}

fn talk(input: &mut dyn Read, reference: &mut Reference, full: bool) -> io::Result<()> {
    let mut out = io::stdout().lock();
    let mut say = |answer: Answer| -> io::Result<()> {
        out.write_all(answer.lines(full).as_bytes())?;
        out.flush()
    };
    if up_to(input, 1)? != [VERSION] {
        return say(Answer::Refused(1));
    }
    loop {
        let mut record = up_to(input, 2)?;
        if record.is_empty() {
            return Ok(());
        }
        if record.len() == 2 {
            let length = u16::from_be_bytes([record[0], record[1]]);
            record.extend(up_to(input, length.into())?);
        }
        // One record as a session of its own: the reader of bytes is the same.
        record.insert(0, VERSION);
        let item = items(&record).remove(0);
        say(reference.item(&item))?;
        if item == Item::Stop {
            return Ok(());
        }
    }
}

/// So many bytes, or fewer where the input ends.
fn up_to(input: &mut dyn Read, length: usize) -> io::Result<Vec<u8>> {
    let mut bytes = Vec::new();
    input.take(length as u64).read_to_end(&mut bytes)?;
    Ok(bytes)
}
