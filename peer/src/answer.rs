//! Answer, the supplier's operation (document 01, section 5).

use crate::bits::{bit, first_padded, rows_of, xor_into};
use crate::expand::{expand, pad};
use crate::message::{check_received, demand_clear_columns, write_front, ANSWERS_TAG, BLOCK, COLUMNS_TAG};
use crate::shape::Shape;
use crate::verdict::{demand_lengths, refuse_at, verdict, Checked, Verdict};
use crate::words::word;

/// What a call of answer is lent, beside its output; the taken set is seeds or columns.
struct Lent<'a> {
    shape: Shape,
    session: &'a [u8],
    secret: &'a [u8],
    taken: &'a [u8],
    strings: &'a [u8],
    received: &'a [u8],
}

impl Lent<'_> {
    /// Refusals 1 to 7, where the taken set is to have `set` bytes.
    fn check(&self, set: usize, message: &[u8]) -> Checked {
        let shape = self.shape;
        shape.check()?;
        let inputs = [
            (self.session.len(), 12),
            (self.secret.len(), shape.row()),
            (self.taken.len(), set),
            (self.strings.len(), shape.strings()),
        ];
        demand_lengths(6, &inputs)?;
        demand_lengths(7, &[(message.len(), BLOCK + shape.strings())])
    }

    /// Refusal 9 of a handed-in column.
    fn check_padding(&self) -> Checked {
        refuse_at(first_padded(self.taken, self.shape), 9)
    }

    /// Refusals 10 to 13 of the received message.
    fn check_message(&self) -> Checked {
        check_received(self.received, self.shape, self.session, COLUMNS_TAG, self.shape.columns())?;
        demand_clear_columns(self.received, self.shape)
    }

    /// Taking: the rows q. Where the secret has 0 the supplier took U, and its column is the
    /// message's xor U; where it has 1, its column is V alone.
    fn take(&self, taken: &[u8]) -> Vec<u8> {
        let c = self.shape.c();
        let mut columns = taken.to_vec();
        let sent = self.received[BLOCK..].chunks_exact(c);
        for (i, (column, sent)) in columns.chunks_exact_mut(c).zip(sent).enumerate() {
            if bit(self.secret, i) == 0 {
                xor_into(column, sent);
            }
        }
        let mut rows = vec![0; self.shape.kept()];
        rows_of(&columns, self.shape, &mut rows);
        rows
    }

    /// Masking: the string at row j, place r is masked by the pad of (j, q(j) xor (word r AND s)).
    fn mask(&self, rows: &[u8], masked: &mut [u8]) {
        let (n, l, row) = (self.shape.n(), self.shape.l(), self.shape.row());
        masked.copy_from_slice(self.strings);
        for (index, string) in masked.chunks_exact_mut(l).enumerate() {
            let (j, r) = (index / n, index % n);
            let hashed = hashed_row(self.shape.mode, &rows[j * row..][..row], r, self.secret);
            xor_into(string, &pad(self.session, j, &hashed[..row])[..l]);
        }
    }

    fn write(&self, taken: &[u8], message: &mut [u8]) {
        write_front(message, self.shape, self.session, ANSWERS_TAG, self.shape.strings());
        self.mask(&self.take(taken), &mut message[BLOCK..]);
    }
}

/// q xor (word r AND s), in the first k/8 of 32 bytes.
fn hashed_row(mode: u8, q: &[u8], r: usize, secret: &[u8]) -> [u8; 32] {
    let mut row = [0; 32];
    for (((byte, q), w), s) in row.iter_mut().zip(q).zip(word(mode, r)).zip(secret) {
        *byte = q ^ (w & s);
    }
    row
}

/// From columns already expanded.
pub fn answer_from_columns(
    shape: Shape,
    session: &[u8],
    secret: &[u8],
    taken: &[u8],
    strings: &[u8],
    received: &[u8],
    message: &mut [u8],
) -> Verdict {
    let lent = Lent { shape, session, secret, taken, strings, received };
    let checked = lent
        .check(shape.columns(), message)
        .and_then(|()| lent.check_padding())
        .and_then(|()| lent.check_message());
    verdict(checked, || lent.write(taken, message))
}

/// From seeds.
pub fn answer_from_seeds(
    shape: Shape,
    session: &[u8],
    secret: &[u8],
    taken: &[u8],
    strings: &[u8],
    received: &[u8],
    message: &mut [u8],
) -> Verdict {
    let lent = Lent { shape, session, secret, taken, strings, received };
    let checked = lent.check(shape.seeds(), message).and_then(|()| lent.check_message());
    verdict(checked, || lent.write(&expand(taken, session, shape), message))
}

#[cfg(test)]
mod tests {
    use super::*;
    use crate::prepare::prepare_from_columns;
    use crate::verdict::SUCCESS;

    const SHAPE: Shape = Shape { mode: 2, rows: 1, places: 8, bytes: 1 };

    /// P8 and P9: selection 3, all columns zero.
    fn marked_message() -> (Vec<u8>, Vec<u8>) {
        let (mut message, mut kept) = (vec![165; 27 + 256], vec![165; 32]);
        let given =
            prepare_from_columns(SHAPE, &[1; 12], &[0; 256], &[0; 256], &[3], &mut message, &mut kept);
        assert_eq!(given, SUCCESS);
        (message, kept)
    }

    fn marked_rows(secret: u8) -> Vec<u8> {
        let (message, _) = marked_message();
        let (secret, taken) = ([secret; 32], [0; 256]);
        let lent = Lent {
            shape: SHAPE,
            session: &[1; 12],
            secret: &secret,
            taken: &taken,
            strings: &[0; 8],
            received: &message,
        };
        lent.take(&taken)
    }

    #[test]
    fn p8_and_p9() {
        let (message, kept) = marked_message();
        assert_eq!(message[27..], [0, 1, 1, 0, 0, 1, 1, 0].repeat(32));
        assert_eq!(kept, [0x66; 32]);
    }

    #[test]
    fn p10_secret_all_ones() {
        let rows = marked_rows(0xff);
        assert_eq!(rows, [0x00; 32]);
        assert_eq!(hashed_row(2, &rows, 3, &[0xff; 32]), [0x66; 32]);
        assert_eq!(hashed_row(2, &rows, 5, &[0xff; 32]), [0x5a; 32]);
    }

    #[test]
    fn p11_secret_all_zeros() {
        let rows = marked_rows(0x00);
        for r in 0..8 {
            assert_eq!(hashed_row(2, &rows, r, &[0x00; 32]), [0x66; 32]);
        }
    }
}
