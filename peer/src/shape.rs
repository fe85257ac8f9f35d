//! The shape of a batch (document 01, section 2).

use crate::verdict::{demand, Checked};

pub const PAIRS: u8 = 1;
pub const CHOICES: u8 = 2;

pub const MOST_ROWS: u16 = 1_024;
pub const MOST_PLACES: u16 = 256;
pub const MOST_BYTES: u8 = 32;
pub const MOST_IN_ALL: usize = 32_768;

/// Mode, rows m, places n and bytes l, at their widths on the wire (section 6), so that every value
/// a caller can hold can also be sent and compared.
#[derive(Clone, Copy, Debug, PartialEq, Eq)]
pub struct Shape {
    pub mode: u8,
    pub rows: u16,
    pub places: u16,
    pub bytes: u8,
}

impl Shape {
    /// Refusals 1 to 5, in number order.
    pub fn check(self) -> Checked {
        demand(self.mode == PAIRS || self.mode == CHOICES, 1, 0)?;
        demand((1..=MOST_ROWS).contains(&self.rows), 2, 0)?;
        demand(self.allows_places(), 3, 0)?;
        demand((1..=MOST_BYTES).contains(&self.bytes), 4, 0)?;
        demand(self.strings() <= MOST_IN_ALL, 5, 0)
    }

    fn allows_places(self) -> bool {
        if self.mode == PAIRS {
            self.places == 2
        } else {
            (2..=MOST_PLACES).contains(&self.places)
        }
    }

    pub fn m(self) -> usize {
        usize::from(self.rows)
    }

    pub fn n(self) -> usize {
        usize::from(self.places)
    }

    pub fn l(self) -> usize {
        usize::from(self.bytes)
    }

    /// The number of columns.
    pub fn k(self) -> usize {
        if self.mode == PAIRS {
            128
        } else {
            256
        }
    }

    /// The bytes of a column.
    pub fn c(self) -> usize {
        self.m().div_ceil(8)
    }

    /// The bytes of a row, and of the secret and a word.
    pub fn row(self) -> usize {
        self.k() / 8
    }

    /// The bytes of a set of k columns.
    pub fn columns(self) -> usize {
        self.k() * self.c()
    }

    /// The bytes of a set of k seeds.
    pub fn seeds(self) -> usize {
        self.k() * 32
    }

    /// The bytes of m rows.
    pub fn kept(self) -> usize {
        self.m() * self.row()
    }

    /// The bytes of all strings, and of all masked strings.
    pub fn strings(self) -> usize {
        self.m() * self.n() * self.l()
    }

    /// The bytes of the opened strings.
    pub fn opened(self) -> usize {
        self.m() * self.l()
    }

    /// The value of a message's first field (section 6).
    pub fn field(self) -> [u8; 6] {
        let ([m1, m0], [n1, n0]) = (self.rows.to_be_bytes(), self.places.to_be_bytes());
        [self.mode, m1, m0, n1, n0, self.bytes]
    }

    /// The shape that a message's first field says.
    pub fn of_field(field: &[u8]) -> Shape {
        Shape {
            mode: field[0],
            rows: u16::from_be_bytes([field[1], field[2]]),
            places: u16::from_be_bytes([field[3], field[4]]),
            bytes: field[5],
        }
    }
}

#[cfg(test)]
mod tests {
    use super::*;
    use crate::verdict::Verdict;

    fn code(mode: u8, rows: u16, places: u16, bytes: u8) -> u8 {
        match (Shape { mode, rows, places, bytes }).check() {
            Ok(()) => 0,
            Err(Verdict { code, place: 0 }) => code,
            Err(_) => panic!("refusals 1 to 5 have place 0"),
        }
    }

    #[test]
    fn p12_bytes_of_a_column() {
        let c = |rows| Shape { mode: 2, rows, places: 8, bytes: 1 }.c();
        assert_eq!((c(8), c(9)), (1, 2));
    }

    // Section 9, 'Run only'.
    #[test]
    fn largest_batches() {
        assert_eq!(code(2, 4, 256, 32), 0);
        assert_eq!(code(1, 1_024, 2, 16), 0);
        assert_eq!(code(2, 5, 256, 32), 5);
        assert_eq!(code(1, 1_024, 2, 17), 5);
        assert_eq!(code(2, 0, 2, 1), 2);
        assert_eq!(code(2, 1_025, 2, 1), 2);
    }

    #[test]
    fn refusals_in_number_order() {
        assert_eq!(code(0, 0, 0, 0), 1);
        assert_eq!(code(3, 1, 2, 1), 1);
        assert_eq!(code(2, 0, 0, 0), 2);
        assert_eq!(code(1, 1, 3, 0), 3);
        assert_eq!(code(2, 1, 1, 1), 3);
        assert_eq!(code(2, 1, 257, 1), 3);
        assert_eq!(code(2, 1_024, 256, 33), 4);
        assert_eq!(code(2, 1_024, 256, 32), 5);
        assert_eq!(code(1, u16::MAX, u16::MAX, u8::MAX), 2);
    }

    #[test]
    fn field_is_read_back() {
        let shape = Shape { mode: 2, rows: 1_024, places: 256, bytes: 32 };
        assert_eq!(shape.field(), [2, 4, 0, 1, 0, 32]);
        assert_eq!(Shape::of_field(&shape.field()), shape);
    }
}
