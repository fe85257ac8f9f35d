//! Open, the buyer's second operation (document 01, section 5).

use std::hint::black_box;

use crate::bits::xor_into;
use crate::expand::pad;
use crate::message::{check_received, ANSWERS_TAG, BLOCK};
use crate::selections::demand_selections;
use crate::shape::Shape;
use crate::verdict::{demand_lengths, verdict, Checked, Verdict};

/// Refusals 1 to 8, then those of the received message.
fn check(
    shape: Shape,
    session: &[u8],
    selections: &[u8],
    kept: &[u8],
    received: &[u8],
    opened: &[u8],
) -> Checked {
    shape.check()?;
    demand_lengths(6, &[(session.len(), 12), (selections.len(), shape.m()), (kept.len(), shape.kept())])?;
    demand_lengths(7, &[(opened.len(), shape.opened())])?;
    demand_selections(selections, shape)?;
    check_received(received, shape, session, ANSWERS_TAG, shape.strings())
}

/// Every bit set where the two places are one, none elsewhere. The hint keeps the compiler from making a branch of it.
fn mask(place: usize, selected: u8) -> u8 {
    black_box(0u8.wrapping_sub(u8::from(place == usize::from(selected))))
}

/// The string at the selected place of a row. Every place is gone over, the others under a mask of zeros, so that the same bytes are read whatever was
/// selected.
fn select(row: &[u8], selected: u8, string: &mut [u8]) {
    string.fill(0);
    for (place, other) in row.chunks_exact(string.len()).enumerate() {
        let mask = mask(place, selected);
        string.iter_mut().zip(other).for_each(|(byte, &masked)| *byte |= masked & mask);
    }
}

/// Row j opens as the masked string at place r(j) xor the pad of (j, kept row j).
fn write(shape: Shape, session: &[u8], selections: &[u8], kept: &[u8], masked: &[u8], opened: &mut [u8]) {
    let (n, l) = (shape.n(), shape.l());
    for (j, string) in opened.chunks_exact_mut(l).enumerate() {
        select(&masked[j * n * l..][..n * l], selections[j], string);
        xor_into(string, &pad(session, j, &kept[j * shape.row()..][..shape.row()])[..l]);
    }
}

pub fn open(
    shape: Shape,
    session: &[u8],
    selections: &[u8],
    kept: &[u8],
    received: &[u8],
    opened: &mut [u8],
) -> Verdict {
    let checked = check(shape, session, selections, kept, received, opened);
    verdict(checked, || write(shape, session, selections, kept, &received[BLOCK..], opened))
}
