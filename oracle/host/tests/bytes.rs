//! The copy under `rustdds/` is the published one, byte for byte: SHA-256 of each file against stored values.

const FILES: [(&str, &[u8], &str); 6] = [
    (
        "LICENSE.md",
        include_bytes!("../../rustdds/LICENSE.md"),
        "4cf4030c93a521c635365ce6ea9b37ead07687bea7e7a5cba995d6604131582d",
    ),
    (
        "readcondition.rs",
        include_bytes!("../../rustdds/src/dds/readcondition.rs"),
        "5916937ba9b5b724a6c05dc919d9e65fac7a16501189f4a9a0ed53be4e5f26a6",
    ),
    (
        "sampleinfo.rs",
        include_bytes!("../../rustdds/src/dds/sampleinfo.rs"),
        "6a6b4741937f0c7250f239dd75ad0485672e57d14fcc2f9504e00266a4a0ffdc",
    ),
    (
        "datasample_cache.rs",
        include_bytes!("../../rustdds/src/dds/with_key/datasample_cache.rs"),
        "7c4e74304a670d2374dca3ad0dcf0e5965556fc3c5d22a17fbbffae9a9537360",
    ),
    (
        "cache_change.rs",
        include_bytes!("../../rustdds/src/structure/cache_change.rs"),
        "fb58a705222ecb01ea9996e955f4f1610d148c3c01efe4ea493fad0802c32a16",
    ),
    (
        "dds_cache.rs",
        include_bytes!("../../rustdds/src/structure/dds_cache.rs"),
        "b4aa0212745bf96b7d41db5d5f4b160bc1ecb002691822f241c925e75eff043e",
    ),
];

#[test]
fn copies_are_unchanged() {
    for (name, bytes, expected) in FILES {
        assert_eq!(sha256(bytes), expected, "{name}");
    }
}

#[test]
fn sha256_of_abc() {
    let known = "ba7816bf8f01cfea414140de5dae2223b00361a396177a9cb410ff61f20015ad";
    assert_eq!(sha256(b"abc"), known);
}

/// FIPS 180-4, with its constants worked out from their meaning: fractions of roots of the first primes.
fn sha256(message: &[u8]) -> String {
    let primes: Vec<u64> = (2..312u64)
        .filter(|n| (2..*n).all(|d| n % d != 0))
        .collect();
    let k: Vec<u32> = primes
        .iter()
        .take(64)
        .map(|p| root_fraction(*p, 3))
        .collect();
    let mut h: Vec<u32> = primes
        .iter()
        .take(8)
        .map(|p| root_fraction(*p, 2))
        .collect();
    let mut padded = message.to_vec();
    padded.push(0x80);
    while padded.len() % 64 != 56 {
        padded.push(0);
    }
    padded.extend((message.len() as u64 * 8).to_be_bytes());
    for block in padded.chunks(64) {
        compress(&mut h, block, &k);
    }
    h.iter().map(|word| format!("{word:08x}")).collect()
}

/// The first 32 bits behind the point of the second or third root of p: floor(root(p * 2^(32 * degree))) mod 2^32.
fn root_fraction(p: u64, degree: u32) -> u32 {
    let (mut low, mut high) = (0u128, 1u128 << 38);
    while low + 1 < high {
        let middle = (low + high) / 2;
        if middle.pow(degree) <= u128::from(p) << (32 * degree) {
            low = middle;
        } else {
            high = middle;
        }
    }
    low as u32
}

fn compress(h: &mut [u32], block: &[u8], k: &[u32]) {
    let mut w: Vec<u32> = block
        .chunks(4)
        .map(|b| u32::from_be_bytes([b[0], b[1], b[2], b[3]]))
        .collect();
    for i in 16..64 {
        let (x, y) = (w[i - 15], w[i - 2]);
        let s0 = x.rotate_right(7) ^ x.rotate_right(18) ^ (x >> 3);
        let s1 = y.rotate_right(17) ^ y.rotate_right(19) ^ (y >> 10);
        w.push(
            w[i - 16]
                .wrapping_add(s0)
                .wrapping_add(w[i - 7])
                .wrapping_add(s1),
        );
    }
    let mut v = h.to_vec();
    for i in 0..64 {
        let s1 = v[4].rotate_right(6) ^ v[4].rotate_right(11) ^ v[4].rotate_right(25);
        let choice = (v[4] & v[5]) ^ (!v[4] & v[6]);
        let s0 = v[0].rotate_right(2) ^ v[0].rotate_right(13) ^ v[0].rotate_right(22);
        let majority = (v[0] & v[1]) ^ (v[0] & v[2]) ^ (v[1] & v[2]);
        let t = v[7]
            .wrapping_add(s1)
            .wrapping_add(choice)
            .wrapping_add(k[i])
            .wrapping_add(w[i]);
        v[3] = v[3].wrapping_add(t);
        v[7] = t.wrapping_add(s0).wrapping_add(majority);
        v.rotate_right(1);
    }
    for (word, add) in h.iter_mut().zip(v) {
        *word = word.wrapping_add(add);
    }
}
