//! Bytes that are no good session: for the program's refusals 1 and 10 and its two ways to stop.

use crate::rng::Rng;

pub fn damage(rng: &mut Rng, mut bytes: Vec<u8>) -> Vec<u8> {
    for _ in 0..1 + rng.below(3) {
        if bytes.is_empty() {
            return bytes;
        }
        let at = rng.below(bytes.len() as u64) as usize;
        match rng.below(8) {
            0 => bytes[at] ^= 1 << rng.below(8),
            1 => bytes.truncate(at),
            2 => bytes.insert(at, rng.draw() as u8),
            3 => drop(bytes.remove(at)),
            // A record of a length that no operation has, among them length 0.
            4 => insert_record(rng, &mut bytes),
            // The first record: set-up comes late or not at all.
            5 => drop(bytes.drain(1..bytes.len().min(11))),
            6 => bytes[0] = rng.pick(&[0, 2, 3, 255]),
            _ => bytes.truncate(rng.below(14) as usize),
        }
    }
    bytes
}

/// Right behind the set-up, where a record boundary is.
fn insert_record(rng: &mut Rng, bytes: &mut Vec<u8>) {
    let at = rng.pick(&[1, 11]).min(bytes.len());
    let length = rng.pick(&[0u16, 1, 2, 3, 4, 8, 9, 12, 45, 46, 47, 300]);
    let mut record = length.to_be_bytes().to_vec();
    for n in 0..length {
        record.push(if n == 0 {
            rng.below(10) as u8
        } else {
            rng.below(3) as u8
        });
    }
    let tail = bytes.split_off(at);
    bytes.extend(record);
    bytes.extend(tail);
}
