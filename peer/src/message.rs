//! Messages (document 01, section 6), and what an operation asks of one it received (section 7).

use crate::bits::first_padded;
use crate::shape::Shape;
use crate::verdict::{demand, refuse_at, Checked};

pub const SHAPE_TAG: u8 = 1;
pub const SESSION_TAG: u8 = 2;
pub const COLUMNS_TAG: u8 = 3;
pub const ANSWERS_TAG: u8 = 4;

/// Where the second and third header begin, and the block.
pub const SESSION_HEADER: usize = 9;
pub const BLOCK_HEADER: usize = 24;
pub const BLOCK: usize = 27;

fn header(tag: u8, length: usize) -> [u8; 3] {
    let [high, low] = (length as u16).to_be_bytes();
    [tag, high, low]
}

/// Writes the 27 bytes before the block.
pub fn write_front(message: &mut [u8], shape: Shape, session: &[u8], tag: u8, block: usize) {
    message[..3].copy_from_slice(&header(SHAPE_TAG, 6));
    message[3..SESSION_HEADER].copy_from_slice(&shape.field());
    message[SESSION_HEADER..12].copy_from_slice(&header(SESSION_TAG, 12));
    message[12..BLOCK_HEADER].copy_from_slice(session);
    message[BLOCK_HEADER..BLOCK].copy_from_slice(&header(tag, block));
}

/// Refusal 10 at a header's byte: fewer than 3 bytes remain, tag or length is not the expected one,
/// or fewer value bytes remain than it says.
pub fn demand_header(message: &[u8], at: usize, tag: u8, length: usize) -> Checked {
    let remain = message.get(at..).unwrap_or(&[]);
    let whole = remain.starts_with(&header(tag, length)) && remain.len() - 3 >= length;
    demand(whole, 10, at)
}

/// Refusal 10 at the first byte left over after a block.
pub fn demand_end(message: &[u8], block: usize) -> Checked {
    demand(message.len() == BLOCK + block, 10, BLOCK + block)
}

/// Refusal 13 at the first column of a message with padding set.
pub fn demand_clear_columns(message: &[u8], shape: Shape) -> Checked {
    refuse_at(first_padded(&message[BLOCK..], shape), 13)
}

fn first_difference(one: &[u8], other: &[u8]) -> Option<usize> {
    one.iter().zip(other).position(|(x, y)| x != y)
}

/// What an operation asks of a received message, from its front: each field is compared before the
/// next header is looked at.
pub fn check_received(message: &[u8], shape: Shape, session: &[u8], tag: u8, block: usize) -> Checked {
    demand_header(message, 0, SHAPE_TAG, 6)?;
    refuse_at(first_difference(&message[3..SESSION_HEADER], &shape.field()), 11)?;
    demand_header(message, SESSION_HEADER, SESSION_TAG, 12)?;
    refuse_at(first_difference(&message[12..BLOCK_HEADER], session), 12)?;
    demand_header(message, BLOCK_HEADER, tag, block)?;
    demand_end(message, block)
}
