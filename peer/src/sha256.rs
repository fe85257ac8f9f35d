//! SHA-256 of FIPS 180-4, by the standard's sections.

use crate::verdict::{demand, demand_lengths, verdict, Checked, Verdict};

/// The longest input that the call takes (document 01, section 4).
pub const LONGEST_INPUT: usize = 65_535;

/// Section 4.2.2: the first 32 bits of the fractional parts of the cube roots of the first 64 primes.
const ROUND_CONSTANTS: [u32; 64] = [
    0x428a2f98, 0x71374491, 0xb5c0fbcf, 0xe9b5dba5, 0x3956c25b, 0x59f111f1, 0x923f82a4, 0xab1c5ed5,
    0xd807aa98, 0x12835b01, 0x243185be, 0x550c7dc3, 0x72be5d74, 0x80deb1fe, 0x9bdc06a7, 0xc19bf174,
    0xe49b69c1, 0xefbe4786, 0x0fc19dc6, 0x240ca1cc, 0x2de92c6f, 0x4a7484aa, 0x5cb0a9dc, 0x76f988da,
    0x983e5152, 0xa831c66d, 0xb00327c8, 0xbf597fc7, 0xc6e00bf3, 0xd5a79147, 0x06ca6351, 0x14292967,
    0x27b70a85, 0x2e1b2138, 0x4d2c6dfc, 0x53380d13, 0x650a7354, 0x766a0abb, 0x81c2c92e, 0x92722c85,
    0xa2bfe8a1, 0xa81a664b, 0xc24b8b70, 0xc76c51a3, 0xd192e819, 0xd6990624, 0xf40e3585, 0x106aa070,
    0x19a4c116, 0x1e376c08, 0x2748774c, 0x34b0bcb5, 0x391c0cb3, 0x4ed8aa4a, 0x5b9cca4f, 0x682e6ff3,
    0x748f82ee, 0x78a5636f, 0x84c87814, 0x8cc70208, 0x90befffa, 0xa4506ceb, 0xbef9a3f7, 0xc67178f2,
];

/// Section 5.3.3: the first 32 bits of the fractional parts of the square roots of the first 8 primes.
const INITIAL: [u32; 8] =
    [0x6a09e667, 0xbb67ae85, 0x3c6ef372, 0xa54ff53a, 0x510e527f, 0x9b05688c, 0x1f83d9ab, 0x5be0cd19];

// Section 4.1.2, formulas (4.2) to (4.7).

fn ch(x: u32, y: u32, z: u32) -> u32 {
    (x & y) ^ (!x & z)
}

fn maj(x: u32, y: u32, z: u32) -> u32 {
    (x & y) ^ (x & z) ^ (y & z)
}

fn big_sigma_0(x: u32) -> u32 {
    x.rotate_right(2) ^ x.rotate_right(13) ^ x.rotate_right(22)
}

fn big_sigma_1(x: u32) -> u32 {
    x.rotate_right(6) ^ x.rotate_right(11) ^ x.rotate_right(25)
}

fn small_sigma_0(x: u32) -> u32 {
    x.rotate_right(7) ^ x.rotate_right(18) ^ (x >> 3)
}

fn small_sigma_1(x: u32) -> u32 {
    x.rotate_right(17) ^ x.rotate_right(19) ^ (x >> 10)
}

/// Section 6.2.2, step 1: the message schedule of one block.
fn schedule(block: &[u8]) -> [u32; 64] {
    let mut w = [0; 64];
    for (word, bytes) in w.iter_mut().zip(block.chunks_exact(4)) {
        *word = u32::from_be_bytes([bytes[0], bytes[1], bytes[2], bytes[3]]);
    }
    for t in 16..64 {
        w[t] = small_sigma_1(w[t - 2])
            .wrapping_add(w[t - 7])
            .wrapping_add(small_sigma_0(w[t - 15]))
            .wrapping_add(w[t - 16]);
    }
    w
}

/// Section 6.2.2, step 3: the working variables a to h after one round.
fn round([a, b, c, d, e, f, g, h]: [u32; 8], constant: u32, word: u32) -> [u32; 8] {
    let t1 =
        h.wrapping_add(big_sigma_1(e)).wrapping_add(ch(e, f, g)).wrapping_add(constant).wrapping_add(word);
    let t2 = big_sigma_0(a).wrapping_add(maj(a, b, c));
    [t1.wrapping_add(t2), a, b, c, d.wrapping_add(t1), e, f, g]
}

/// Section 6.2.2, steps 2 to 4: the hash value after one more block. Rounds go by eights: after so
/// many each variable is back at its own place, and the compiler need not move them about.
fn compress(value: &mut [u32; 8], block: &[u8]) {
    let w = schedule(block);
    let mut working = *value;
    for (constants, words) in ROUND_CONSTANTS.chunks_exact(8).zip(w.chunks_exact(8)) {
        for t in 0..8 {
            working = round(working, constants[t], words[t]);
        }
    }
    for (word, add) in value.iter_mut().zip(working) {
        *word = word.wrapping_add(add);
    }
}

/// The digest of `input`, of any length.
pub fn sha256(input: &[u8]) -> [u8; 32] {
    let mut value = INITIAL;
    let whole = input.chunks_exact(64);
    let rest = whole.remainder();
    for block in whole {
        compress(&mut value, block);
    }
    // Section 5.1.1: a one bit, zeros, and the length in bits as 64 bits, in one block or in two.
    let mut last = [0; 128];
    last[..rest.len()].copy_from_slice(rest);
    last[rest.len()] = 0x80;
    let end = if rest.len() < 56 { 64 } else { 128 };
    last[end - 8..end].copy_from_slice(&(input.len() as u64 * 8).to_be_bytes());
    for block in last[..end].chunks_exact(64) {
        compress(&mut value, block);
    }
    let mut digest = [0; 32];
    for (bytes, word) in digest.chunks_exact_mut(4).zip(value) {
        bytes.copy_from_slice(&word.to_be_bytes());
    }
    digest
}

/// The hash's call (document 01, section 4): its two refusals, in their order.
pub fn hash(input: &[u8], digest: &mut [u8]) -> Verdict {
    let checked = check(input, digest);
    verdict(checked, || digest.copy_from_slice(&sha256(input)))
}

fn check(input: &[u8], digest: &[u8]) -> Checked {
    demand(input.len() <= LONGEST_INPUT, 6, 1)?;
    demand_lengths(7, &[(digest.len(), 32)])
}

#[cfg(test)]
mod tests {
    use super::*;
    use crate::published::DIGESTS;
    use crate::text::{bytes, hex};
    use crate::verdict::SUCCESS;

    fn digest_in_hex(input: &[u8]) -> String {
        hex(&sha256(input))
    }

    /// The whole part of the `power`-th root of `n`.
    fn whole_root(n: u128, power: u32) -> u128 {
        let (mut low, mut high) = (0u128, 1 << 36);
        while high - low > 1 {
            let middle = (low + high) / 2;
            if middle.pow(power) <= n {
                low = middle;
            } else {
                high = middle;
            }
        }
        low
    }

    fn primes(count: usize) -> Vec<u128> {
        (2u128..).filter(|n| (2..*n).all(|d| n % d != 0)).take(count).collect()
    }

    // The tables are what the standard says they are, and not only what someone typed.
    #[test]
    fn constants_are_roots_of_primes() {
        for (constant, prime) in ROUND_CONSTANTS.iter().zip(primes(64)) {
            assert_eq!(*constant, whole_root(prime << 96, 3) as u32, "cube root of {prime}");
        }
        for (word, prime) in INITIAL.iter().zip(primes(8)) {
            assert_eq!(*word, whole_root(prime << 64, 2) as u32, "square root of {prime}");
        }
    }

    #[test]
    fn published_digests() {
        for published in DIGESTS {
            assert_eq!(digest_in_hex(published.message), published.digest, "{}", published.name);
        }
        assert_eq!(
            digest_in_hex(&vec![b'a'; 1_000_000]),
            "cdc76e5c9914fb9281a1c7e284d73e67f1809a48a497200e046d39ccc7112cd0"
        );
    }

    // The standard's further examples: a single byte, and lengths around the padding's second block.
    #[test]
    fn published_digests_of_equal_bytes() {
        let zeros = |n| digest_in_hex(&vec![0; n]);
        assert_eq!(
            digest_in_hex(&[0xbd]),
            "68325720aabd7c82f30f554b313d0570c95accbb7dc4b5aae11204c08ffe732b"
        );
        assert_eq!(
            digest_in_hex(&bytes("c98c8e55")),
            "7abc22c0ae5af26ce93dbb94433a0e0b2e119d014f8e7f65bd56c61ccccd9504"
        );
        assert_eq!(zeros(55), "02779466cdec163811d078815c633f21901413081449002f24aa3e80f0b88ef7");
        assert_eq!(zeros(56), "d4817aa5497628e7c77e6b606107042bbba3130888c5f47a375e6179be789fbb");
        assert_eq!(zeros(57), "65a16cb7861335d5ace3c60718b5052e44660726da4cd13bb745381b235a1785");
        assert_eq!(zeros(64), "f5a5fd42d16a20302798ef6ed309979b43003d2320d9f0e8ea9831a92759fb4b");
    }

    #[test]
    fn refusals_of_the_call() {
        let mut digest = [165; 33];
        assert_eq!(hash(&[0; 65_536], &mut digest), Verdict { code: 6, place: 1 });
        for length in [0, 31, 33] {
            assert_eq!(hash(b"abc", &mut digest[..length]), Verdict { code: 7, place: 1 });
        }
        assert_eq!(digest, [165; 33]);
        assert_eq!(hash(&[0; 65_535], &mut digest[..32]), SUCCESS);
        assert_eq!(digest[..32], sha256(&[0; 65_535]));
    }
}
