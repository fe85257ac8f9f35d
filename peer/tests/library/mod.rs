//! The C library's functions. A slice is a pointer and a length; a verdict is one number of 64 bits,
//! code · 2^32 + place.

use peer::case::Calls;
use peer::{Shape, Verdict};

extern "C" {
    fn adw_hash(input: *const u8, input_len: usize, digest: *mut u8, digest_len: usize) -> u64;

    fn adw_cipher_block(
        key: *const u8,
        key_len: usize,
        nonce: *const u8,
        nonce_len: usize,
        counter: u32,
        block: *mut u8,
        block_len: usize,
    ) -> u64;

    fn adw_prepare_from_seeds(
        mode: u8,
        rows: u16,
        places: u16,
        bytes: u8,
        session: *const u8,
        session_len: usize,
        first: *const u8,
        first_len: usize,
        second: *const u8,
        second_len: usize,
        selections: *const u8,
        selections_len: usize,
        message: *mut u8,
        message_len: usize,
        kept: *mut u8,
        kept_len: usize,
    ) -> u64;

    fn adw_prepare_from_columns(
        mode: u8,
        rows: u16,
        places: u16,
        bytes: u8,
        session: *const u8,
        session_len: usize,
        first: *const u8,
        first_len: usize,
        second: *const u8,
        second_len: usize,
        selections: *const u8,
        selections_len: usize,
        message: *mut u8,
        message_len: usize,
        kept: *mut u8,
        kept_len: usize,
    ) -> u64;

    fn adw_answer_from_seeds(
        mode: u8,
        rows: u16,
        places: u16,
        bytes: u8,
        session: *const u8,
        session_len: usize,
        secret: *const u8,
        secret_len: usize,
        taken: *const u8,
        taken_len: usize,
        strings: *const u8,
        strings_len: usize,
        received: *const u8,
        received_len: usize,
        message: *mut u8,
        message_len: usize,
    ) -> u64;

    fn adw_answer_from_columns(
        mode: u8,
        rows: u16,
        places: u16,
        bytes: u8,
        session: *const u8,
        session_len: usize,
        secret: *const u8,
        secret_len: usize,
        taken: *const u8,
        taken_len: usize,
        strings: *const u8,
        strings_len: usize,
        received: *const u8,
        received_len: usize,
        message: *mut u8,
        message_len: usize,
    ) -> u64;

    fn adw_open(
        mode: u8,
        rows: u16,
        places: u16,
        bytes: u8,
        session: *const u8,
        session_len: usize,
        selections: *const u8,
        selections_len: usize,
        kept: *const u8,
        kept_len: usize,
        received: *const u8,
        received_len: usize,
        opened: *mut u8,
        opened_len: usize,
    ) -> u64;

    fn adw_list(message: *const u8, message_len: usize, text: *mut u8, text_len: usize) -> usize;
}

/// The verdict that a number stands for.
fn verdict(number: u64) -> Verdict {
    let code = u8::try_from(number >> 32).expect("a code below 256");
    Verdict { code, place: (number % (1 << 32)) as usize }
}

pub fn hash(input: &[u8], digest: &mut [u8]) -> Verdict {
    verdict(unsafe { adw_hash(input.as_ptr(), input.len(), digest.as_mut_ptr(), digest.len()) })
}

pub fn cipher_block(key: &[u8], nonce: &[u8], counter: u32, block: &mut [u8]) -> Verdict {
    verdict(unsafe {
        adw_cipher_block(
            key.as_ptr(),
            key.len(),
            nonce.as_ptr(),
            nonce.len(),
            counter,
            block.as_mut_ptr(),
            block.len(),
        )
    })
}

/// A safe function over one of the forms of prepare.
macro_rules! prepare {
    ($name:ident, $function:ident) => {
        fn $name(
            shape: Shape,
            session: &[u8],
            first: &[u8],
            second: &[u8],
            selections: &[u8],
            message: &mut [u8],
            kept: &mut [u8],
        ) -> Verdict {
            verdict(unsafe {
                $function(
                    shape.mode,
                    shape.rows,
                    shape.places,
                    shape.bytes,
                    session.as_ptr(),
                    session.len(),
                    first.as_ptr(),
                    first.len(),
                    second.as_ptr(),
                    second.len(),
                    selections.as_ptr(),
                    selections.len(),
                    message.as_mut_ptr(),
                    message.len(),
                    kept.as_mut_ptr(),
                    kept.len(),
                )
            })
        }
    };
}

/// A safe function over one of the forms of answer.
macro_rules! answer {
    ($name:ident, $function:ident) => {
        fn $name(
            shape: Shape,
            session: &[u8],
            secret: &[u8],
            taken: &[u8],
            strings: &[u8],
            received: &[u8],
            message: &mut [u8],
        ) -> Verdict {
            verdict(unsafe {
                $function(
                    shape.mode,
                    shape.rows,
                    shape.places,
                    shape.bytes,
                    session.as_ptr(),
                    session.len(),
                    secret.as_ptr(),
                    secret.len(),
                    taken.as_ptr(),
                    taken.len(),
                    strings.as_ptr(),
                    strings.len(),
                    received.as_ptr(),
                    received.len(),
                    message.as_mut_ptr(),
                    message.len(),
                )
            })
        }
    };
}

prepare!(prepare_from_columns, adw_prepare_from_columns);
prepare!(prepare_from_seeds, adw_prepare_from_seeds);
answer!(answer_from_columns, adw_answer_from_columns);
answer!(answer_from_seeds, adw_answer_from_seeds);

fn open(
    shape: Shape,
    session: &[u8],
    selections: &[u8],
    kept: &[u8],
    received: &[u8],
    opened: &mut [u8],
) -> Verdict {
    verdict(unsafe {
        adw_open(
            shape.mode,
            shape.rows,
            shape.places,
            shape.bytes,
            session.as_ptr(),
            session.len(),
            selections.as_ptr(),
            selections.len(),
            kept.as_ptr(),
            kept.len(),
            received.as_ptr(),
            received.len(),
            opened.as_mut_ptr(),
            opened.len(),
        )
    })
}

/// Lists into a lent text buffer and answers the text's length.
pub fn list_into(message: &[u8], text: &mut [u8]) -> usize {
    unsafe { adw_list(message.as_ptr(), message.len(), text.as_mut_ptr(), text.len()) }
}

pub fn list(message: &[u8]) -> Vec<u8> {
    let mut text = [165; 128];
    let length = list_into(message, &mut text);
    text[..length].to_vec()
}

pub const CALLS: Calls = Calls {
    prepare: [prepare_from_columns, prepare_from_seeds],
    answer: [answer_from_columns, answer_from_seeds],
    open,
    list,
};
