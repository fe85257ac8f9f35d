//! ChaCha20 by libcrypto.

use std::ffi::c_int;
use std::ptr::null;

use crate::libcrypto::libcrypto;
use crate::verdict::{Verdict, SUCCESS};

/// The keystream from a block on, at most 128 bytes: what so many zeros are encrypted to. OpenSSL takes
/// counter and nonce as one string.
pub fn keystream(key: &[u8], counter: u32, nonce: &[u8], into: &mut [u8]) {
    let library = libcrypto();
    let (zeros, mut start, mut written) = ([0; 128], [0; 16], 0);
    start[..4].copy_from_slice(&counter.to_le_bytes());
    start[4..].copy_from_slice(nonce);
    assert!(key.len() == 32 && into.len() <= zeros.len());
    let length = into.len() as c_int;
    unsafe {
        (library.cipher_init)(library.context, null(), null(), key.as_ptr(), start.as_ptr());
        (library.cipher_update)(library.context, into.as_mut_ptr(), &mut written, zeros.as_ptr(), length);
    }
}

/// One block of keystream, as peer's modules ask for it.
pub fn block(key: &[u8], counter: u32, nonce: &[u8]) -> [u8; 64] {
    let mut block = [0; 64];
    keystream(key, counter, nonce, &mut block);
    block
}

/// In place of the cipher's call; it refuses nothing.
pub fn cipher_block(key: &[u8], nonce: &[u8], counter: u32, keystream: &mut [u8]) -> Verdict {
    keystream.copy_from_slice(&block(key, counter, nonce));
    SUCCESS
}
