//! The ChaCha20 block function of RFC 8439, section 2.3.

use crate::verdict::{demand_lengths, verdict, Checked, Verdict};

/// The four words in front of the key: "expand 32-byte k" (section 2.3).
const CONSTANTS: [u32; 4] = [0x61707865, 0x3320646e, 0x79622d32, 0x6b206574];

/// Section 2.1.
fn quarter_round(state: &mut [u32; 16], a: usize, b: usize, c: usize, d: usize) {
    state[a] = state[a].wrapping_add(state[b]);
    state[d] = (state[d] ^ state[a]).rotate_left(16);
    state[c] = state[c].wrapping_add(state[d]);
    state[b] = (state[b] ^ state[c]).rotate_left(12);
    state[a] = state[a].wrapping_add(state[b]);
    state[d] = (state[d] ^ state[a]).rotate_left(8);
    state[c] = state[c].wrapping_add(state[d]);
    state[b] = (state[b] ^ state[c]).rotate_left(7);
}

/// Section 2.3: four column rounds and then four diagonal rounds.
fn inner_block(state: &mut [u32; 16]) {
    quarter_round(state, 0, 4, 8, 12);
    quarter_round(state, 1, 5, 9, 13);
    quarter_round(state, 2, 6, 10, 14);
    quarter_round(state, 3, 7, 11, 15);
    quarter_round(state, 0, 5, 10, 15);
    quarter_round(state, 1, 6, 11, 12);
    quarter_round(state, 2, 7, 8, 13);
    quarter_round(state, 3, 4, 9, 14);
}

/// Fills words from little-endian bytes.
fn read_words(words: &mut [u32], bytes: &[u8]) {
    for (word, part) in words.iter_mut().zip(bytes.chunks_exact(4)) {
        *word = u32::from_le_bytes([part[0], part[1], part[2], part[3]]);
    }
}

/// One block of keystream, for a key of 32 bytes and a nonce of 12.
pub fn block(key: &[u8], counter: u32, nonce: &[u8]) -> [u8; 64] {
    let mut initial = [0; 16];
    initial[..4].copy_from_slice(&CONSTANTS);
    read_words(&mut initial[4..12], key);
    initial[12] = counter;
    read_words(&mut initial[13..], nonce);
    let mut state = initial;
    for _ in 0..10 {
        inner_block(&mut state);
    }
    let mut keystream = [0; 64];
    for (index, bytes) in keystream.chunks_exact_mut(4).enumerate() {
        bytes.copy_from_slice(&state[index].wrapping_add(initial[index]).to_le_bytes());
    }
    keystream
}

/// The cipher's call (document 01, section 4): its refusals, in their order.
pub fn cipher_block(key: &[u8], nonce: &[u8], counter: u32, keystream: &mut [u8]) -> Verdict {
    let checked = check(key, nonce, keystream);
    verdict(checked, || keystream.copy_from_slice(&block(key, counter, nonce)))
}

fn check(key: &[u8], nonce: &[u8], keystream: &[u8]) -> Checked {
    demand_lengths(6, &[(key.len(), 32), (nonce.len(), 12)])?;
    demand_lengths(7, &[(keystream.len(), 64)])
}

#[cfg(test)]
mod tests {
    use super::*;
    use crate::published::BLOCKS;
    use crate::text::{bytes, hex};
    use crate::verdict::SUCCESS;

    // Section 2.1.1.
    #[test]
    fn quarter_round_of_the_standard() {
        let mut state = [0; 16];
        state[..4].copy_from_slice(&[0x11111111, 0x01020304, 0x9b8d6f43, 0x01234567]);
        quarter_round(&mut state, 0, 1, 2, 3);
        assert_eq!(state[..4], [0xea2a92f4, 0xcb1cf8ce, 0x4581472e, 0x5881c4bb]);
    }

    // Section 2.3.2, and appendix A.1, vectors 1 to 5.
    #[test]
    fn blocks_of_the_standard() {
        for published in BLOCKS {
            let (key, nonce) = (bytes(published.key), bytes(published.nonce));
            let keystream = block(&key, published.counter, &nonce);
            assert_eq!(hex(&keystream), published.keystream, "{}", published.name);
        }
    }

    #[test]
    fn refusals_of_the_call() {
        let mut keystream = [165; 65];
        let (key, nonce) = ([1; 33], [2; 13]);
        for wrong in [0, 31, 33] {
            let refused = cipher_block(&key[..wrong], &nonce, 0, &mut keystream);
            assert_eq!(refused, Verdict { code: 6, place: 1 });
        }
        for wrong in [0, 11, 13] {
            let refused = cipher_block(&key[..32], &nonce[..wrong], 0, &mut keystream);
            assert_eq!(refused, Verdict { code: 6, place: 2 });
        }
        for wrong in [0, 63, 65] {
            let refused = cipher_block(&key[..32], &nonce[..12], 0, &mut keystream[..wrong]);
            assert_eq!(refused, Verdict { code: 7, place: 1 });
        }
        assert_eq!(keystream, [165; 65]);
        let given = cipher_block(&key[..32], &nonce[..12], u32::MAX, &mut keystream[..64]);
        assert_eq!(given, SUCCESS);
        assert_eq!(keystream[..64], block(&[1; 32], u32::MAX, &[2; 12]));
    }
}
