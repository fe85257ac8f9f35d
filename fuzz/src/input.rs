//! What the fuzzer's bytes stand for: some words about the message and its caller, and then the message.

use peer::generate::Stream;
use peer::message::{write_front, ANSWERS_TAG, BLOCK, COLUMNS_TAG};
use peer::shape::{MOST_IN_ALL, MOST_ROWS, PAIRS};
use peer::Shape;

const WORDS: usize = 10;

/// A message, and a caller of open that receives it.
pub struct Input {
    pub message: Vec<u8>,
    pub shape: Shape,
    pub session: [u8; 12],
    pub selections: Vec<u8>,
    pub kept: Vec<u8>,
    pub opened: usize,
    /// A length for the text's buffer.
    pub text: usize,
}

/// The first so many bytes, with zeros where there are none.
fn front<const N: usize>(bytes: &[u8]) -> [u8; N] {
    let (mut front, there) = ([0; N], bytes.len().min(N));
    front[..there].copy_from_slice(&bytes[..there]);
    front
}

/// A shape in range.
fn lawful(field: &[u8]) -> Shape {
    let said = Shape::of_field(field);
    let mode = 1 + said.mode % 2;
    let places = if mode == PAIRS { 2 } else { 2 + said.places % 255 };
    let mut shape = Shape { mode, rows: 1 + said.rows % MOST_ROWS, places, bytes: 1 + said.bytes % 32 };
    while shape.strings() > MOST_IN_ALL {
        shape.rows = shape.rows.div_ceil(2);
    }
    shape
}

/// The bytes as they stand; or, where the kind says so, a lawful message made of them, since few bytes that
/// the fuzzer tries have a shape and lengths that agree.
fn message(kind: u8, bytes: &[u8]) -> Vec<u8> {
    let said: [u8; 18] = front(bytes);
    let shape = lawful(&said[..6]);
    let (tag, block) = match kind % 4 {
        1 => (COLUMNS_TAG, shape.columns()),
        2 | 3 => (ANSWERS_TAG, shape.strings()),
        _ => return bytes.to_vec(),
    };
    let mut message = vec![0; BLOCK + block];
    write_front(&mut message, shape, &said[6..], tag, block);
    for (byte, from) in message[BLOCK..].iter_mut().zip(bytes.iter().skip(said.len())) {
        *byte = *from;
    }
    message
}

/// A length that is off by so much, down from 128 on.
fn off(length: usize, by: u8) -> usize {
    if by < 128 {
        length + usize::from(by)
    } else {
        length.saturating_sub(256 - usize::from(by))
    }
}

impl Input {
    /// A caller that expects what the message says, as far as it says it, but for what the words change: a
    /// byte of that, a length, a selection; and one byte of the message changes after that.
    pub fn of(bytes: &[u8]) -> Option<Input> {
        let (words, rest) = bytes.split_first_chunk::<WORDS>()?;
        let [kind, at, with, which, by, seed, selection, spot_high, spot_low, flip] = *words;
        let mut message = message(kind, rest);
        let mut said: [u8; 24] = front(&message);
        if let Some(byte) = said.get_mut(usize::from(at)) {
            *byte ^= with;
        }
        if let Some(byte) = message.get_mut(usize::from(u16::from_be_bytes([spot_high, spot_low]))) {
            *byte ^= flip;
        }
        let shape = Shape::of_field(&said[3..9]);
        // A shape out of range is refused before any length is looked at, so what it asks for need not be
        // lent.
        let most = if shape.check().is_ok() { usize::MAX } else { 40 };
        let mut lengths = [shape.m(), shape.kept(), shape.opened()].map(|length| length.min(most));
        match usize::from(which) {
            buffer @ 0..3 => lengths[buffer] = off(lengths[buffer], by),
            3 => message.resize(off(message.len(), by), 0),
            _ => {}
        }
        let mut stream = Stream::of_seed(u32::from(seed));
        let [mut selections, kept] = [0, 1].map(|buffer| stream.bytes(lengths[buffer]));
        for place in &mut selections {
            *place = (usize::from(*place) % shape.n().max(1)) as u8;
        }
        if let Some(place) = selections.iter_mut().find(|place| **place < selection) {
            *place = selection;
        }
        let session = said[12..].try_into().expect("12 bytes");
        let (opened, text) = (lengths[2], usize::from(at) + usize::from(with));
        Some(Input { message, shape, session, selections, kept, opened, text })
    }
}
