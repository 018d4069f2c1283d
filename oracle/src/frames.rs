//! What the session format and the topic cache's have in common: version byte 1, then records behind a two-byte big-endian length.

pub const VERSION: u8 = 1;

/// The records of an input, without their lengths. `None` stands for a missing or wrong version byte or a cut-off record, and
/// nothing follows it.
pub fn records(bytes: &[u8]) -> Vec<Option<&[u8]>> {
    let Some((&VERSION, mut rest)) = bytes.split_first() else {
        return vec![None];
    };
    let mut out = Vec::new();
    while !rest.is_empty() {
        let Some((record, tail)) = next(rest) else {
            out.push(None);
            return out;
        };
        out.push(Some(record));
        rest = tail;
    }
    out
}

/// What the two length bytes announce, if it is all there, and what follows it.
fn next(rest: &[u8]) -> Option<(&[u8], &[u8])> {
    let (length, tail) = rest.split_first_chunk()?;
    tail.split_at_checked(u16::from_be_bytes(*length).into())
}

/// The parts in which a session is sent, one for each record: the version byte goes with the first.
pub fn parts(records: impl IntoIterator<Item = Vec<u8>>) -> Vec<Vec<u8>> {
    let mut out = Vec::new();
    let mut part = vec![VERSION];
    for record in records {
        part.extend((record.len() as u16).to_be_bytes());
        part.extend(record);
        out.push(std::mem::take(&mut part));
    }
    out
}

/// A whole session; one without records is its version byte.
pub fn encode(records: impl IntoIterator<Item = Vec<u8>>) -> Vec<u8> {
    let parts = parts(records);
    if parts.is_empty() {
        return vec![VERSION];
    }
    parts.concat()
}

/// A big-endian field.
pub fn number(bytes: &[u8]) -> u64 {
    bytes.iter().fold(0, |n, b| n << 8 | u64::from(*b))
}

/// Bytes as they are printed.
pub fn hex(bytes: &[u8]) -> String {
    bytes.iter().map(|b| format!("{b:02x}")).collect()
}
