//! Prepare, the buyer's first operation (document 01, section 5).

use crate::bits::{columns_of, first_padded, rows_of, xor_into};
use crate::expand::expand;
use crate::message::{write_front, BLOCK, COLUMNS_TAG};
use crate::selections::demand_selections;
use crate::shape::Shape;
use crate::verdict::{demand_lengths, refuse_at, verdict, Checked, Verdict};
use crate::words::word;

/// What a call of prepare is lent, beside its outputs; the sets are seeds or columns.
struct Lent<'a> {
    shape: Shape,
    session: &'a [u8],
    first: &'a [u8],
    second: &'a [u8],
    selections: &'a [u8],
}

impl Lent<'_> {
    /// Refusals 1 to 8, where each set is to have `set` bytes.
    fn check(&self, set: usize, message: &[u8], kept: &[u8]) -> Checked {
        let shape = self.shape;
        shape.check()?;
        let inputs = [
            (self.session.len(), 12),
            (self.first.len(), set),
            (self.second.len(), set),
            (self.selections.len(), shape.m()),
        ];
        demand_lengths(6, &inputs)?;
        let outputs = [(message.len(), BLOCK + shape.columns()), (kept.len(), shape.kept())];
        demand_lengths(7, &outputs)?;
        demand_selections(self.selections, shape)
    }

    /// Refusal 9: column i, or k + i in the second set.
    fn check_padding(&self) -> Checked {
        refuse_at(first_padded(self.first, self.shape), 9)?;
        let in_second = first_padded(self.second, self.shape);
        refuse_at(in_second.map(|i| self.shape.k() + i), 9)
    }

    /// Writes both outputs from columns. D's row j is word r(j), so the kept rows are the second
    /// set's rows xor the selected words; turned back they are V xor D, to which the message adds U.
    fn write(&self, first: &[u8], second: &[u8], message: &mut [u8], kept: &mut [u8]) {
        let shape = self.shape;
        rows_of(second, shape, kept);
        for (row, r) in kept.chunks_exact_mut(shape.row()).zip(self.selections) {
            xor_into(row, word(shape.mode, usize::from(*r)));
        }
        write_front(message, shape, self.session, COLUMNS_TAG, shape.columns());
        columns_of(kept, shape, &mut message[BLOCK..]);
        xor_into(&mut message[BLOCK..], first);
    }
}

/// From columns already expanded.
pub fn prepare_from_columns(
    shape: Shape,
    session: &[u8],
    first: &[u8],
    second: &[u8],
    selections: &[u8],
    message: &mut [u8],
    kept: &mut [u8],
) -> Verdict {
    let lent = Lent { shape, session, first, second, selections };
    let checked = lent.check(shape.columns(), message, kept).and_then(|()| lent.check_padding());
    verdict(checked, || lent.write(first, second, message, kept))
}

/// From seeds.
pub fn prepare_from_seeds(
    shape: Shape,
    session: &[u8],
    first: &[u8],
    second: &[u8],
    selections: &[u8],
    message: &mut [u8],
    kept: &mut [u8],
) -> Verdict {
    let lent = Lent { shape, session, first, second, selections };
    let checked = lent.check(shape.seeds(), message, kept);
    verdict(checked, || {
        let (first, second) = (expand(first, session, shape), expand(second, session, shape));
        lent.write(&first, &second, message, kept)
    })
}
