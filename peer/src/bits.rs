//! Bits of byte strings, columns and rows (document 01, section 2).

use crate::shape::Shape;

/// Bit i: bit i mod 8, least significant first, of byte i div 8.
pub fn bit(string: &[u8], i: usize) -> u8 {
    string[i / 8] >> (i % 8) & 1
}

pub fn xor_into(target: &mut [u8], other: &[u8]) {
    for (byte, with) in target.iter_mut().zip(other) {
        *byte ^= with;
    }
}

/// The padding bits of a column's last byte, for m rows.
fn padding(m: usize) -> u8 {
    match m % 8 {
        0 => 0,
        used => 0xff << used,
    }
}

/// Clears the padding of a column of m rows.
pub fn clear_padding(column: &mut [u8], m: usize) {
    if let Some(last) = column.last_mut() {
        *last &= !padding(m);
    }
}

/// The first column of a set that has padding set.
pub fn first_padded(set: &[u8], shape: Shape) -> Option<usize> {
    let mask = padding(shape.m());
    set.chunks_exact(shape.c()).position(|column| column[shape.c() - 1] & mask != 0)
}

/// Eight bytes as a square of bits, turned over its diagonal: bit s of byte t was bit t of byte s.
fn turned(square: [u8; 8]) -> [u8; 8] {
    let mut result = [0; 8];
    for (s, byte) in square.into_iter().enumerate() {
        for (t, line) in result.iter_mut().enumerate() {
            *line |= (byte >> t & 1) << s;
        }
    }
    result
}

/// Turns `height` lines of bits, each of `width` bytes, into 8 · width lines of height / 8 bytes:
/// line y of the result has at place x bit y of line x. Places past `from` count as zeros, and lines
/// past `to` are left out.
fn turn(from: &[u8], width: usize, to: &mut [u8], height: usize) {
    let line = |x: usize, byte: usize| from.get(x * width + byte).copied().unwrap_or(0);
    for group in 0..height {
        for byte in 0..width {
            let square = turned(std::array::from_fn(|x| line(8 * group + x, byte)));
            for (y, value) in square.into_iter().enumerate() {
                if let Some(target) = to.get_mut((8 * byte + y) * height + group) {
                    *target = value;
                }
            }
        }
    }
}

/// The rows of a set of columns: row j collects bit j of all columns.
pub fn rows_of(columns: &[u8], shape: Shape, rows: &mut [u8]) {
    turn(columns, shape.c(), rows, shape.row());
}

/// The columns of m rows: column i collects bit i of all rows, its padding zero.
pub fn columns_of(rows: &[u8], shape: Shape, columns: &mut [u8]) {
    turn(rows, shape.row(), columns, shape.c());
}

#[cfg(test)]
mod tests {
    use super::*;
    use crate::generate::Stream;

    fn shapes() -> impl Iterator<Item = Shape> {
        let rows = [1, 2, 7, 8, 9, 15, 16, 17, 65, 1_024];
        rows.into_iter().flat_map(|rows| [1, 2].map(|mode| Shape { mode, rows, places: 2, bytes: 1 }))
    }

    #[test]
    fn least_significant_bit_first() {
        assert_eq!([bit(&[0x01, 0x80], 0), bit(&[0x01, 0x80], 7), bit(&[0x01, 0x80], 15)], [1, 0, 1]);
    }

    #[test]
    fn turning_bit_by_bit() {
        for shape in shapes() {
            let mut columns = Stream::of_seed(7).bytes(shape.columns());
            for column in columns.chunks_exact_mut(shape.c()) {
                clear_padding(column, shape.m());
            }
            let mut rows = vec![165; shape.kept()];
            rows_of(&columns, shape, &mut rows);
            for j in 0..shape.m() {
                for i in 0..shape.k() {
                    let column = &columns[i * shape.c()..][..shape.c()];
                    let row = &rows[j * shape.row()..][..shape.row()];
                    assert_eq!(bit(row, i), bit(column, j), "row {j}, column {i} of {shape:?}");
                }
            }
            let mut again = vec![165; shape.columns()];
            columns_of(&rows, shape, &mut again);
            assert_eq!(again, columns, "{shape:?}");
        }
    }

    #[test]
    fn padding_is_every_bit_from_m_upward() {
        for shape in shapes() {
            let k = shape.k();
            for i in [0, k / 2, k - 1] {
                for place in 0..8 * shape.c() {
                    let mut set = vec![0; shape.columns()];
                    set[i * shape.c() + place / 8] |= 1 << (place % 8);
                    let found = first_padded(&set, shape);
                    assert_eq!(found, (place >= shape.m()).then_some(i), "bit {place} of {shape:?}");
                    for column in set.chunks_exact_mut(shape.c()) {
                        clear_padding(column, shape.m());
                    }
                    assert_eq!(set.iter().any(|byte| *byte != 0), place < shape.m());
                }
            }
        }
    }
}
