//! The expected lines of the program `vectors`: the standards' examples, then generated inputs and
//! the refusals of the two calls. CASES.md says how each line's inputs come about.

use crate::case::OLD;
use crate::generate::Stream;
use crate::published::{BLOCKS, DIGESTS};
use crate::text::{bytes, hex};
use crate::verdict::Verdict;
use crate::{cipher_block, hash};

/// Generated inputs of the hash, as (length of the input, length of the digest buffer).
const HASHED: [(usize, usize); 20] = [
    (1, 32),
    (55, 32),
    (56, 32),
    (63, 32),
    (64, 32),
    (65, 32),
    (119, 32),
    (120, 32),
    (127, 32),
    (128, 32),
    (1_000, 32),
    (4_096, 32),
    (65_535, 32),
    (65_536, 32),
    (65_536, 31),
    (3, 31),
    (3, 33),
    (3, 0),
    (65_535, 31),
    (0, 32),
];

/// Generated inputs of the block, as (length of key, of nonce and of the block, counter).
const KEYED: [(usize, usize, usize, u32); 16] = [
    (32, 12, 64, 0),
    (32, 12, 64, 1),
    (32, 12, 64, 0x8000_0000),
    (32, 12, 64, 0xffff_ffff),
    (31, 12, 64, 0),
    (33, 12, 64, 0),
    (0, 12, 64, 0),
    (32, 11, 64, 0),
    (32, 13, 64, 0),
    (32, 0, 64, 0),
    (32, 12, 63, 0),
    (32, 12, 65, 0),
    (32, 12, 0, 0),
    (31, 11, 63, 0),
    (32, 11, 63, 0),
    (33, 12, 65, 0),
];

/// A line: the call, its verdict, and the lent buffer as it then stands.
fn line(name: &str, verdict: Verdict, buffer: &[u8]) -> String {
    format!("{name} {} {} {}\n", verdict.code, verdict.place, hex(buffer))
}

fn hash_line(input: &[u8], length: usize) -> String {
    let mut digest = vec![OLD; length];
    let verdict = hash(input, &mut digest);
    line("hash", verdict, &digest)
}

fn block_line(key: &[u8], nonce: &[u8], counter: u32, length: usize) -> String {
    let mut keystream = vec![OLD; length];
    let verdict = cipher_block(key, nonce, counter, &mut keystream);
    line("block", verdict, &keystream)
}

/// All lines. Generated inputs of the entry at index i are of seed i; a key comes before its nonce.
pub fn vectors() -> String {
    let mut text = String::new();
    for published in DIGESTS {
        text += &hash_line(published.message, 32);
    }
    for (seed, (length, digest)) in (0..).zip(HASHED) {
        text += &hash_line(&Stream::of_seed(seed).bytes(length), digest);
    }
    for published in BLOCKS {
        text += &block_line(&bytes(published.key), &bytes(published.nonce), published.counter, 64);
    }
    for (seed, (key, nonce, block, counter)) in (0..).zip(KEYED) {
        let mut stream = Stream::of_seed(seed);
        let (key, nonce) = (stream.bytes(key), stream.bytes(nonce));
        text += &block_line(&key, &nonce, counter, block);
    }
    text
}

#[cfg(test)]
mod tests {
    use super::*;

    #[test]
    fn published_values_stand_in_front() {
        let text = vectors();
        let lines: Vec<&str> = text.lines().collect();
        for (line, published) in lines.iter().zip(DIGESTS) {
            assert_eq!(*line, format!("hash 0 0 {}", published.digest));
        }
        for (line, published) in lines[3 + HASHED.len()..].iter().zip(BLOCKS) {
            assert_eq!(*line, format!("block 0 0 {}", published.keystream));
        }
        assert_eq!(lines.len(), 3 + HASHED.len() + 6 + KEYED.len());
    }
}
