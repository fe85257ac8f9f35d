//! Code words (document 01, sections 2 and 3).

use crate::shape::PAIRS;

/// Place x of word r in mode 2: the parity of the ones in (r AND x).
pub const fn parity(r: u8, x: u8) -> u8 {
    ((r & x).count_ones() % 2) as u8
}

/// The word r of mode 2, place by place from the rule.
const fn choice_word(r: u8) -> [u8; 32] {
    let mut word = [0; 32];
    let mut x = 0;
    while x < 256 {
        word[x / 8] |= parity(r, x as u8) << (x % 8);
        x += 1;
    }
    word
}

const fn choice_words() -> [[u8; 32]; 256] {
    let mut words = [[0; 32]; 256];
    let mut r = 0;
    while r < 256 {
        words[r] = choice_word(r as u8);
        r += 1;
    }
    words
}

static CHOICE_WORDS: [[u8; 32]; 256] = choice_words();
static PAIR_WORDS: [[u8; 16]; 2] = [[0x00; 16], [0xff; 16]];

/// Word r of a mode, k/8 bytes. In mode 1, r is 0 or 1.
pub fn word(mode: u8, r: usize) -> &'static [u8] {
    if mode == PAIRS {
        &PAIR_WORDS[r]
    } else {
        &CHOICE_WORDS[r]
    }
}

/// The second way (section 3): the straight word r of order q, one number a place.
pub fn straight(q: u32, r: usize) -> Vec<u8> {
    if q == 0 {
        return vec![0];
    }
    let h = r % (1 << (q - 1));
    let mut word = straight(q - 1, h);
    word.extend(if r == h { straight(q - 1, h) } else { flipped(q - 1, h) });
    word
}

/// The flipped word r of order q.
pub fn flipped(q: u32, r: usize) -> Vec<u8> {
    if q == 0 {
        return vec![1];
    }
    let h = r % (1 << (q - 1));
    let mut word = flipped(q - 1, h);
    word.extend(if r == h { flipped(q - 1, h) } else { straight(q - 1, h) });
    word
}

#[cfg(test)]
mod tests {
    use super::*;
    use crate::bits::bit;
    use crate::shape::CHOICES;

    #[test]
    fn p1_to_p7() {
        for (r, byte) in [(0, 0x00), (1, 0xaa), (2, 0xcc), (3, 0x66), (5, 0x5a)] {
            assert_eq!(word(CHOICES, r), [byte; 32], "word {r}");
        }
        assert_eq!(word(CHOICES, 128), [[0x00; 16], [0xff; 16]].concat());
        assert_eq!(word(CHOICES, 255)[..4], [0x96, 0x69, 0x69, 0x96]);
    }

    #[test]
    fn halving_gives_the_same_words() {
        for r in 0..256 {
            let (one, other) = (straight(8, r), flipped(8, r));
            for x in 0..256 {
                assert_eq!(one[x], bit(word(CHOICES, r), x), "word {r}, place {x}");
                assert_eq!(one[x] + other[x], 1, "word {r}, place {x}");
            }
        }
    }

    // What makes the construction hide: any two words of mode 2 differ at 128 places.
    #[test]
    fn words_are_far_apart() {
        for a in 0..256 {
            for b in 0..a {
                let pairs = word(CHOICES, a).iter().zip(word(CHOICES, b));
                assert_eq!(pairs.map(|(x, y)| (x ^ y).count_ones()).sum::<u32>(), 128);
            }
        }
    }
}
