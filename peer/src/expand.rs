//! Seeds to columns, and the pads (document 01, section 4).

use crate::bits::clear_padding;
use crate::chacha20::block;
use crate::sha256::sha256;
use crate::shape::Shape;

/// The longest column, which is two blocks of keystream.
const LONGEST_COLUMN: usize = 128;

/// Writes the column of a seed: the keystream from block 0 on, cut to the column, padding cleared.
fn expand_seed(seed: &[u8], session: &[u8], m: usize, column: &mut [u8]) {
    let mut workspace = [0; LONGEST_COLUMN];
    for (counter, part) in workspace[..column.len().next_multiple_of(64)].chunks_exact_mut(64).enumerate() {
        part.copy_from_slice(&block(seed, counter as u32, session));
    }
    column.copy_from_slice(&workspace[..column.len()]);
    clear_padding(column, m);
}

/// The columns of a set of seeds.
pub fn expand(seeds: &[u8], session: &[u8], shape: Shape) -> Vec<u8> {
    let mut columns = vec![0; shape.columns()];
    for (seed, column) in seeds.chunks_exact(32).zip(columns.chunks_exact_mut(shape.c())) {
        expand_seed(seed, session, shape.m(), column);
    }
    columns
}

/// The hash behind the pad of (j, row); a pad is its first l bytes.
pub fn pad(session: &[u8], j: usize, row: &[u8]) -> [u8; 32] {
    let mut input = [0; 12 + 4 + 32];
    let length = 16 + row.len();
    input[..12].copy_from_slice(session);
    input[12..16].copy_from_slice(&(j as u32).to_be_bytes());
    input[16..length].copy_from_slice(row);
    sha256(&input[..length])
}

#[cfg(test)]
mod tests {
    use super::*;
    use crate::generate::Stream;

    // Section 10: no keystream is left in the padding, and the second block has counter 1.
    #[test]
    fn column_is_keystream_without_padding() {
        let mut stream = Stream::of_seed(3);
        let (seeds, session) = (stream.bytes(128 * 32), stream.bytes(12));
        for rows in [1, 7, 8, 9, 511, 512, 513, 1_023, 1_024] {
            let shape = Shape { mode: 1, rows, places: 2, bytes: 1 };
            let columns = expand(&seeds, &session, shape);
            for (i, column) in columns.chunks_exact(shape.c()).enumerate() {
                let seed = &seeds[32 * i..][..32];
                let keystream = [block(seed, 0, &session), block(seed, 1, &session)].concat();
                for j in 0..8 * shape.c() {
                    let wanted = if j < shape.m() { crate::bits::bit(&keystream, j) } else { 0 };
                    assert_eq!(crate::bits::bit(column, j), wanted);
                }
            }
        }
    }

    #[test]
    fn pad_hashes_session_row_number_and_row() {
        let input = [&[9; 12][..], &[0, 0, 1, 2], &[7; 16]].concat();
        assert_eq!(pad(&[9; 12], 258, &[7; 16]), sha256(&input));
        let input = [&[9; 12][..], &[0, 0, 0, 0], &[7; 32]].concat();
        assert_eq!(pad(&[9; 12], 0, &[7; 32]), sha256(&input));
    }
}
